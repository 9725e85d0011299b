/* A gateway on freeDiameter, as an extension of its daemon. It asks what the lines of a file say, so many at once as there are lanes, each lane
 * its lines in their order; writes a line for each answer; then stays idle for watchdogs, and shuts the daemon down. A request whose connection is
 * lost is asked again, as it was.
 *
 *     LoadExtension = "gateway.so" : "SETTINGS";    where SETTINGS has the words: WORK ANSWERS LANES SECONDS SERVER PAUSE
 *
 * A lane pauses for so many milliseconds behind each answer. The forms of the lines are said in work.py. */
#include <freeDiameter/extension.h>

#include <errno.h>
#include <semaphore.h>
#include <stdarg.h>
#include <stdatomic.h>
#include <stdio.h>
#include <stdlib.h>
#include <string.h>
#include <time.h>
#include <unistd.h>

enum { MOST_LANES = 64, MOST_SECONDS = 60, MOST_TRIES = 180, UNABLE_TO_DELIVER = 3002 };

enum { CREDIT_CONTROL = 272, CAPABILITIES_EXCHANGE = 257, DEVICE_WATCHDOG = 280, DISCONNECT_PEER = 282 };

enum {
	AUTH_APPLICATION_ID = 258, SESSION_ID = 263, RESULT_CODE = 268, PROXY_HOST = 280, DESTINATION_REALM = 283, PROXY_INFO = 284,
	CC_REQUEST_NUMBER = 415, CC_REQUEST_TYPE = 416, CC_SERVICE_SPECIFIC_UNITS = 417, CC_TIME = 420, CC_TOTAL_OCTETS = 421,
	CHECK_BALANCE_RESULT = 422, COST_INFORMATION = 423, FINAL_UNIT_INDICATION = 430, GRANTED_SERVICE_UNIT = 431, RATING_GROUP = 432,
	REQUESTED_ACTION = 436, REQUESTED_SERVICE_UNIT = 437, SUBSCRIPTION_ID = 443, SUBSCRIPTION_ID_DATA = 444, UNIT_VALUE = 445,
	USED_SERVICE_UNIT = 446, VALUE_DIGITS = 447, VALIDITY_TIME = 448, FINAL_UNIT_ACTION = 449, SUBSCRIPTION_ID_TYPE = 450,
	SERVICES_CREDIT_CONTROL = 456, SERVICE_CONTEXT_ID = 461, PROXY_STATE = 33
};

/* A file's line of requests, and a lane that asks its share of them. */
struct lane {
	int number, line, is_lost;
	sem_t answered;
	pthread_t thread;
};

static struct lane lanes[MOST_LANES];
static char **lines;
static int line_count, lane_count, seconds, milliseconds_between;
static char work_path[1024], answers_path[1024], server[256];
static FILE *answers;
static struct dict_object *request_model;
static pthread_t conductor;
static long milliseconds;

/* How often a request was sent again. */
static atomic_int repeats;

/* Of capabilities exchanges, watchdogs and disconnections: requests sent, and answers received. */
static atomic_int base[3][2];

/* What can't be done ends the run: the one who started it finds fewer answers than requests. */
static void give_up(const char *what)
{
	fprintf(stderr, "gateway: %s\n", what);
	exit(1);
}

static void must(int error, const char *what)
{
	if (error)
		give_up(what);
}

static struct dict_object *model_of(int code)
{
	struct dict_object *found = NULL;
	uint32_t key = code;
	must(fd_dict_search(fd_g_config->cnf_dict, DICT_AVP, AVP_BY_CODE, &key, &found, ENOENT), "an AVP isn't in the dictionary");
	return found;
}

static struct avp *put(msg_or_avp *into, int code, union avp_value *value)
{
	struct avp *avp;
	must(fd_msg_avp_new(model_of(code), 0, &avp), "no AVP");
	if (value)
		must(fd_msg_avp_setvalue(avp, value), "no value");
	must(fd_msg_avp_add(into, MSG_BRW_LAST_CHILD, avp), "no place for an AVP");
	return avp;
}

static void put_u32(msg_or_avp *into, int code, uint32_t number)
{
	union avp_value value = {.u32 = number};
	put(into, code, &value);
}

static void put_u64(msg_or_avp *into, int code, uint64_t number)
{
	union avp_value value = {.u64 = number};
	put(into, code, &value);
}

static void put_text(msg_or_avp *into, int code, const char *text)
{
	union avp_value value = {.os = {.data = (uint8_t *)text, .len = strlen(text)}};
	put(into, code, &value);
}

/* Units as a word says them: a hyphen for none, e for a group without an amount. */
static void put_units(msg_or_avp *into, int code, const char *word)
{
	if (*word == '-')
		return;
	struct avp *units = put(into, code, NULL);
	if (*word == 't')
		put_u32(units, CC_TIME, strtoul(word + 1, NULL, 10));
	else if (*word == 'o')
		put_u64(units, CC_TOTAL_OCTETS, strtoull(word + 1, NULL, 10));
	else if (*word == 'u')
		put_u64(units, CC_SERVICE_SPECIFIC_UNITS, strtoull(word + 1, NULL, 10));
}

/* GROUP:ASKED:USED. A service without a group stands at the message's level. */
static void put_service(struct msg *message, char *word)
{
	char *rest, *group = strtok_r(word, ":", &rest), *asked = strtok_r(NULL, ":", &rest), *used = strtok_r(NULL, ":", &rest);
	msg_or_avp *into = message;
	if (*group != '-') {
		into = put(message, SERVICES_CREDIT_CONTROL, NULL);
		put_u32(into, RATING_GROUP, strtoul(group, NULL, 10));
	}
	put_units(into, REQUESTED_SERVICE_UNIT, asked);
	put_units(into, USED_SERVICE_UNIT, used);
}

static void put_proxy(struct msg *message, const char *state)
{
	struct avp *proxy = put(message, PROXY_INFO, NULL);
	put_text(proxy, PROXY_HOST, "first.exchange.example");
	put_text(proxy, PROXY_STATE, state);
}

/* The request of a line, behind the line's lane. */
static struct msg *request_of(const char *line)
{
	char copy[1024], *rest;
	snprintf(copy, sizeof copy, "%s", line);
	strtok_r(copy, " ", &rest);
	char *words[6];
	for (int i = 0; i < 6; i++)
		words[i] = strtok_r(NULL, " ", &rest);
	struct msg *message;
	must(fd_msg_new(request_model, MSGFL_ALLOC_ETEID, &message), "no message");
	put_text(message, SESSION_ID, words[1]);
	must(fd_msg_add_origin(message, 0), "no origin");
	put_text(message, DESTINATION_REALM, "charging.example");
	put_u32(message, AUTH_APPLICATION_ID, 4);
	put_text(message, SERVICE_CONTEXT_ID, "data@example");
	put_u32(message, CC_REQUEST_TYPE, strtoul(words[2], NULL, 10));
	put_u32(message, CC_REQUEST_NUMBER, strtoul(words[3], NULL, 10));
	if (*words[0] != '-') {
		struct avp *subscription = put(message, SUBSCRIPTION_ID, NULL);
		put_u32(subscription, SUBSCRIPTION_ID_TYPE, 0);
		put_text(subscription, SUBSCRIPTION_ID_DATA, words[0]);
	}
	if (*words[4] != '-')
		put_u32(message, REQUESTED_ACTION, strtoul(words[4], NULL, 10));
	for (char *word; (word = strtok_r(NULL, " ", &rest));)
		put_service(message, word);
	if (*words[5] != '-')
		put_proxy(message, words[5]);
	return message;
}

/* A word or a line that is put together piece by piece. */
struct text {
	char octets[2048];
	size_t length;
};

static void add(struct text *text, const char *form, ...)
{
	va_list pieces;
	va_start(pieces, form);
	int took = vsnprintf(text->octets + text->length, sizeof text->octets - text->length, form, pieces);
	va_end(pieces);
	if (took < 0 || (size_t)took >= sizeof text->octets - text->length)
		give_up("an answer is too long");
	text->length += took;
}

/* The value of the first AVP of a code among the children; NULL if there is none. A group has an empty value. */
static union avp_value *found(msg_or_avp *in, int code, struct avp **at)
{
	static union avp_value empty;
	struct avp *avp = NULL;
	for (fd_msg_browse(in, MSG_BRW_FIRST_CHILD, &avp, NULL); avp; fd_msg_browse(avp, MSG_BRW_NEXT, &avp, NULL)) {
		struct avp_hdr *header;
		must(fd_msg_avp_hdr(avp, &header), "no header");
		if (header->avp_code == (uint32_t)code && !(header->avp_flags & AVP_FLAG_VENDOR)) {
			if (at)
				*at = avp;
			return header->avp_value ? header->avp_value : &empty;
		}
	}
	return NULL;
}

static void add_number(struct text *text, msg_or_avp *in, int code)
{
	union avp_value *value = found(in, code, NULL);
	if (value)
		add(text, "%u", value->u32);
	else
		add(text, "-");
}

static void add_granted(struct text *text, msg_or_avp *in)
{
	struct avp *units;
	union avp_value *value;
	if (!found(in, GRANTED_SERVICE_UNIT, &units))
		add(text, "-");
	else if ((value = found(units, CC_TOTAL_OCTETS, NULL)))
		add(text, "o%llu", (unsigned long long)value->u64);
	else if ((value = found(units, CC_TIME, NULL)))
		add(text, "t%u", value->u32);
	else if ((value = found(units, CC_SERVICE_SPECIFIC_UNITS, NULL)))
		add(text, "u%llu", (unsigned long long)value->u64);
}

/* GROUP:RESULT:GRANTED:FINAL:VALIDITY of a service, which at the message's level has no result of its own. */
static void add_service(struct text *text, msg_or_avp *in, int is_single)
{
	struct avp *final;
	union avp_value *action;
	add(text, " ");
	add_number(text, in, RATING_GROUP);
	add(text, ":");
	if (is_single)
		add(text, "-");
	else
		add_number(text, in, RESULT_CODE);
	add(text, ":");
	add_granted(text, in);
	int is_final = found(in, FINAL_UNIT_INDICATION, &final) && (action = found(final, FINAL_UNIT_ACTION, NULL)) && action->i32 == 0;
	add(text, is_final ? ":f:" : ":-:");
	add_number(text, in, VALIDITY_TIME);
}

static void add_octets(struct text *text, union avp_value *value)
{
	if (value)
		add(text, "%.*s", (int)value->os.len, (char *)value->os.data);
	else
		add(text, "-");
}

/* The result beside the services: check0 or cost4. */
static void add_extra(struct text *text, struct msg *answer)
{
	struct avp *cost, *value;
	if (found(answer, CHECK_BALANCE_RESULT, NULL)) {
		add(text, "check");
		add_number(text, answer, CHECK_BALANCE_RESULT);
	} else if (found(answer, COST_INFORMATION, &cost) && found(cost, UNIT_VALUE, &value)) {
		add(text, "cost%lld", (long long)found(value, VALUE_DIGITS, NULL)->i64);
	} else {
		add(text, "-");
	}
}

static void add_services(struct text *text, struct msg *answer)
{
	if (found(answer, GRANTED_SERVICE_UNIT, NULL))
		add_service(text, answer, 1);
	struct avp *avp = NULL;
	for (fd_msg_browse(answer, MSG_BRW_FIRST_CHILD, &avp, NULL); avp; fd_msg_browse(avp, MSG_BRW_NEXT, &avp, NULL)) {
		struct avp_hdr *header;
		must(fd_msg_avp_hdr(avp, &header), "no header");
		if (header->avp_code == SERVICES_CREDIT_CONTROL)
			add_service(text, avp, 0);
	}
}

/* What an answer says. One that breaks the rules of freeDiameter's own dictionary says which. */
static void add_answer(struct text *text, struct msg *answer)
{
	struct fd_pei fault = {0};
	if (fd_msg_parse_dict(answer, fd_g_config->cnf_dict, &fault) || fd_msg_parse_rules(answer, fd_g_config->cnf_dict, &fault)) {
		add(text, "broken %s", fault.pei_message ? fault.pei_message : fault.pei_errcode);
		return;
	}
	struct avp *proxy;
	add_octets(text, found(answer, SESSION_ID, NULL));
	int codes[] = {CC_REQUEST_TYPE, CC_REQUEST_NUMBER, RESULT_CODE};
	for (int i = 0; i < 3; i++) {
		add(text, " ");
		add_number(text, answer, codes[i]);
	}
	add(text, " ");
	add_octets(text, found(answer, PROXY_INFO, &proxy) ? found(proxy, PROXY_STATE, NULL) : NULL);
	add(text, " ");
	add_extra(text, answer);
	add_services(text, answer);
}

/* Whether the daemon itself answered, or a relay, as they do without a connection. */
static int is_undelivered(struct msg *answer)
{
	struct msg_hdr *header;
	must(fd_msg_hdr(answer, &header), "no header");
	if (!(header->msg_flags & CMD_FLAG_ERROR) || fd_msg_parse_dict(answer, fd_g_config->cnf_dict, NULL))
		return 0;
	union avp_value *result = found(answer, RESULT_CODE, NULL);
	return result && result->u32 == UNABLE_TO_DELIVER;
}

static void take_answer(void *of, struct msg **answer)
{
	struct lane *lane = of;
	if (!(lane->is_lost = is_undelivered(*answer))) {
		struct text text = {.length = 0};
		add(&text, "%d ", lane->line);
		add_answer(&text, *answer);
		fprintf(answers, "%s\n", text.octets);
	}
	fd_msg_free(*answer);
	*answer = NULL;
	sem_post(&lane->answered);
}

/* Asks a lane's line; its answer is written down, or lost. */
static void ask(struct lane *lane)
{
	struct msg *request = request_of(lines[lane->line]);
	must(fd_msg_send(&request, take_answer, lane), "a request can't be sent");
	struct timespec until;
	clock_gettime(CLOCK_REALTIME, &until);
	until.tv_sec += MOST_SECONDS;
	while (sem_timedwait(&lane->answered, &until))
		if (errno != EINTR)
			give_up("a request isn't answered");
}

static void *run_lane(void *of)
{
	struct lane *lane = of;
	for (lane->line = 0; lane->line < line_count; lane->line++) {
		if (atoi(lines[lane->line]) != lane->number)
			continue;
		ask(lane);
		for (int tries = 0; lane->is_lost && tries < MOST_TRIES; tries++) {
			repeats++;
			usleep(500000);
			ask(lane);
		}
		usleep(1000 * milliseconds_between);
	}
	return NULL;
}

static void wait_for_server(void)
{
	for (int tries = 0; tries < 300; tries++) {
		struct peer_hdr *peer = NULL;
		must(fd_peer_getbyid(server, strlen(server), 0, &peer), "no peers");
		if (peer && fd_peer_get_state(peer) == STATE_OPEN)
			return;
		usleep(100000);
	}
	give_up("the server isn't reached");
}

static long now(void)
{
	struct timespec time;
	clock_gettime(CLOCK_MONOTONIC, &time);
	return time.tv_sec * 1000 + time.tv_nsec / 1000000;
}

static void *conduct(void *none)
{
	must(fd_core_waitstartcomplete(), "the daemon doesn't start");
	wait_for_server();
	long begun = now();
	for (int i = 0; i < lane_count; i++) {
		lanes[i].number = i;
		must(sem_init(&lanes[i].answered, 0, 0), "no semaphore");
		must(pthread_create(&lanes[i].thread, NULL, run_lane, &lanes[i]), "no thread");
	}
	for (int i = 0; i < lane_count; i++)
		pthread_join(lanes[i].thread, NULL);
	milliseconds = now() - begun;
	sleep(seconds);
	fd_core_shutdown();
	return none;
}

static void count(enum fd_hook_type type, struct msg *message, struct peer_hdr *peer, void *other, struct fd_hook_permsgdata *data, void *own)
{
	static const command_code_t codes[] = {CAPABILITIES_EXCHANGE, DEVICE_WATCHDOG, DISCONNECT_PEER};
	struct msg_hdr *header;
	(void)peer, (void)other, (void)data, (void)own;
	must(fd_msg_hdr(message, &header), "no header");
	int is_request = (header->msg_flags & CMD_FLAG_REQUEST) != 0, is_sent = type == HOOK_MESSAGE_SENT;
	for (int i = 0; i < 3; i++)
		if (header->msg_code == codes[i] && is_request == is_sent)
			base[i][!is_sent]++;
}

static void read_lines(void)
{
	FILE *work = fopen(work_path, "r");
	char *line = NULL;
	size_t room = 0;
	if (!work)
		give_up("the work can't be read");
	while (getline(&line, &room, work) > 0) {
		line[strcspn(line, "\n")] = 0;
		lines = realloc(lines, (line_count + 1) * sizeof *lines);
		lines[line_count++] = strdup(line);
	}
	free(line);
	fclose(work);
}

static int begin(char *settings)
{
	FILE *file = settings ? fopen(settings, "r") : NULL;
	if (!file || fscanf(file, "%1023s %1023s %d %d %255s %d", work_path, answers_path, &lane_count, &seconds, server, &milliseconds_between) != 6
	    || lane_count > MOST_LANES)
		give_up("the settings can't be read");
	fclose(file);
	read_lines();
	if (!(answers = fopen(answers_path, "w")))
		give_up("the answers can't be written");
	struct dict_object *application;
	application_id_t id = 4;
	must(fd_dict_search(fd_g_config->cnf_dict, DICT_APPLICATION, APPLICATION_BY_ID, &id, &application, ENOENT), "no application");
	must(fd_dict_search(fd_g_config->cnf_dict, DICT_COMMAND, CMD_BY_NAME, "Credit-Control-Request", &request_model, ENOENT), "no command");
	must(fd_disp_app_support(application, NULL, 1, 0), "the application isn't supported");
	struct fd_hook_hdl *hook;
	must(fd_hook_register(HOOK_MASK(HOOK_MESSAGE_RECEIVED, HOOK_MESSAGE_SENT), count, NULL, NULL, &hook), "no hook");
	return pthread_create(&conductor, NULL, conduct, NULL);
}

/* Called when all peers have been disconnected from. */
void fd_ext_fini(void)
{
	fprintf(answers, "base");
	for (int i = 0; i < 3; i++)
		fprintf(answers, " %d %d", base[i][0], base[i][1]);
	fprintf(answers, " took %ld again %d\n", milliseconds, repeats);
	fclose(answers);
}

EXTENSION_ENTRY("gateway", begin, "dict_dcca");
