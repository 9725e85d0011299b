"""What a replay of a script prints under a plan, by the rules alone: peers, answers, accounts.

It shares nothing with the server, and is written to be read, not to be fast.
"""

import binascii

from charging import *
from plans import *
from refusals import *
from wire import *

WAITING, OPEN, CLOSED = "waiting", "open", "closed"


class BadScript(Exception):
    """The number of the first line that has no form."""


def replay(plan_text, script):
    """What is printed, told on standard error, and the status."""
    try:
        judge = Judge(Plan(plan_text))
    except BadPlan as fault:
        return "", f"dcc: plan fault {fault}\n", 3
    try:
        events = list(read_script(script))
    except BadScript as line:
        return "", f"dcc: script line {line}\n", 5
    printed = [line for event in events for line in judge.take(event)]
    return "".join(f"{line}\n" for line in printed), "", 0


def read_script(script):
    for number, line in enumerate(script.split(b"\n"), 1):
        if line and not line.startswith(b"#"):
            try:
                yield read_event(*line.split(b" "))
            except (KeyError, ValueError):
                raise BadScript(number) from None


def read_event(form, *words):
    return form, *(read(word) for read, word in zip(FORMS[form], words, strict=True))


def number_up_to(most):
    def read(word):
        digits = word.lstrip(b"0") or b"0"
        if not word.isdigit() or len(digits) > 20 or int(digits) > most:
            raise ValueError
        return int(digits)

    return read


def read_host(word):
    if not 1 <= len(word) <= 255:
        raise ValueError
    return word


def read_octets(word):
    octets = binascii.unhexlify(word)
    if not 1 <= len(octets) <= 65_536:
        raise ValueError
    return octets


def read_subscriber_word(word):
    kind, _, data = word.partition(b":")
    if not is_subscriber_data(data):
        raise ValueError
    return number_up_to(4)(kind), data


PEER, MOMENT, LONG = number_up_to(2**32 - 1), number_up_to(LAST_MOMENT), number_up_to(2**64 - 1)
FORMS = {
    b"connect": [PEER],
    b"open": [PEER, read_host],
    b"message": [PEER, MOMENT, read_octets],
    b"disconnect": [PEER],
    b"topup": [MOMENT, read_subscriber_word, LONG, LONG],
    b"sweep": [MOMENT],
}


class Judge:
    """A server under a plan: its peers, the hosts of those that are open, its accounts, who opened which session from which host, how many sessions
    a subscriber may have open, and how many events it took.
    """

    def __init__(self, plan, make_account=Account, most_sessions=MOST_SESSIONS):
        self.plan, self.accounts, self.openers = plan, {}, {}
        self.make_account, self.most_sessions = make_account, most_sessions
        self.peers, self.hosts, self.events = {}, {}, 0
        self.origin = spell(ORIGIN_HOST, plan.host) + spell(ORIGIN_REALM, plan.realm)

    def take(self, event):
        """The lines that are printed of the next event."""
        self.events += 1
        form, *words = event
        lines = getattr(self, form.decode())(*words)
        return [f"{self.events} {line}" for line in lines or ["-"]]

    def connect(self, peer):
        self.peers[peer] = WAITING

    def open(self, peer, host):
        self.peers[peer], self.hosts[peer] = OPEN, host

    def disconnect(self, peer):
        self.peers.pop(peer, None)

    def topup(self, _moment, subscriber, ticket, amount):
        if not 1 <= amount <= MOST_FUNDS:
            return ["topup bad"]
        account = self.accounts.setdefault(subscriber, self.make_account(self.plan))
        return ["topup done" if account.top_up(ticket, amount) else "topup ceiling"]

    def sweep(self, moment):
        for account in self.accounts.values():
            account.expire(moment)

    def message(self, peer, moment, octets):
        state = self.peers.get(peer, CLOSED)
        if state == CLOSED:
            return []
        answer, closes = self.reply(peer, state, moment, octets)
        self.peers[peer] = CLOSED if closes else OPEN
        return ([f"answer {peer} {answer.hex()}"] if answer else []) + ([f"close {peer}"] if closes else [])

    def reply(self, peer, state, moment, octets):
        """The answer to a message, and whether its connection is closed behind it."""
        try:
            header = read_header(octets)
        except BadHeader:
            return b"", True
        is_request = bool(header.flags & REQUEST)
        is_exchange = is_request and (header.application, header.command) == (0, CAPABILITIES)
        if state == WAITING and not is_exchange:
            return b"", True
        if not is_request:
            return b"", False
        # A list that can't be read is told behind what is wrong with the header, and nothing is taken over from it.
        try:
            avps, unread = read_message_list(octets[HEADER_OCTETS:]), None
        except Refusal as refusal:
            avps, unread = [], refusal
        try:
            check_header(header)
            if unread:
                raise unread
            result, body = SUCCESS, self.accepted(peer, header.command, avps, moment)
        except Refusal as refusal:
            result, body = refusal.result, self.refused(header.command, avps, refusal)
        is_error = 3000 <= result < 4000
        proxies = b"".join(map(copy, all_of(avps, PROXY_INFO)))
        answer = spell_message(header, header.flags & PROXIABLE | (ERROR if is_error else 0), body + proxies)
        is_left = header.command == DISCONNECT and result == SUCCESS
        return answer, is_left or is_exchange and result != SUCCESS

    def accepted(self, peer, command, avps, moment):
        if command == CREDIT_CONTROL:
            return self.credit_control(read_credit_control(avps), self.hosts[peer], moment)
        host = CHECKS[command](avps)
        if command == CAPABILITIES:
            self.hosts[peer] = host
        return self.base(command, SUCCESS)

    def refused(self, command, avps, refusal):
        result = refusal.result
        failed = spell(FAILED_AVP, refusal.failed) if refusal.failed else b""
        session = first_of(avps, SESSION_ID)
        session = spell(SESSION_ID, session.data) if session and 1 <= len(session.data) <= 255 else b""
        if 3000 <= result < 4000:
            return session + spell_number(RESULT_CODE, result) + self.origin
        if command != CREDIT_CONTROL:
            return self.base(command, result) + failed
        numbers = [first_of(avps, code) for code in (REQUEST_TYPE, REQUEST_NUMBER)]
        told = [spell_number(avp.code, avp.number()) for avp in numbers if avp and len(avp.data) == 4]
        return session + self.credit_control_head(result) + b"".join(told) + failed

    def base(self, command, result):
        """An answer of the base protocol, up to its Failed-AVP."""
        body = spell_number(RESULT_CODE, result) + self.origin
        if command == CAPABILITIES:
            body += spell(HOST_IP_ADDRESS, b"\0\1" + self.plan.address) + spell_number(VENDOR_ID, 0)
            body += spell(PRODUCT_NAME, b"dcc", 0) + spell_number(AUTH_APPLICATION_ID, 4)
        return body

    def credit_control_head(self, result):
        return spell_number(RESULT_CODE, result) + self.origin + spell_number(AUTH_APPLICATION_ID, 4)

    def opener(self, session, host):
        """The only subscriber who opened a session from a host, be it open or ended."""
        openers = self.openers.get((session, host), [])
        if len(openers) != 1:
            raise Refusal(MISSING_AVP, empty(SUBSCRIPTION_ID))
        return openers[0]

    def credit_control(self, request, host, moment):
        """A Credit-Control-Answer up to its Proxy-Info: a repeat gets that of the first request of its key."""
        if request.subscriber is None:
            request = request._replace(subscriber=self.opener(request.session, host))
        account = self.accounts.get(request.subscriber)
        if account is None:
            return self.told(request, Outcome(USER_UNKNOWN))
        key = request.session, request.number
        if key not in account.kept:
            outcome = account.answer(request, moment, self.most_sessions)
            account.kept[key] = self.told(request, outcome)
            if request.kind == INITIAL and outcome.result == SUCCESS:
                self.openers.setdefault((request.session, host), []).append(request.subscriber)
        return account.kept[key]

    def told(self, request, outcome):
        body = spell(SESSION_ID, request.session) + self.credit_control_head(outcome.result)
        body += spell_number(REQUEST_TYPE, request.kind) + spell_number(REQUEST_NUMBER, request.number)
        is_session = request.kind != EVENT
        single = [it for it in outcome.services if not request.is_multi]
        body += b"".join(granted(it) for it in single)
        if request.is_multi:
            body += b"".join(self.told_service(it, is_session) for it in outcome.services)
        if outcome.price is not None:
            cost = spell(UNIT_VALUE, spell_long(VALUE_DIGITS, outcome.price) + spell_number(EXPONENT, self.plan.exponent))
            body += spell(COST_INFORMATION, cost + spell_number(CURRENCY_CODE, self.plan.currency))
        body += b"".join(final(it) for it in single)
        if outcome.is_enough is not None:
            body += spell_number(BALANCE_RESULT, 0 if outcome.is_enough else 1)
        return body + b"".join(self.validity(it, is_session) for it in single)

    def told_service(self, outcome, is_session):
        """The Multiple-Services-Credit-Control of a service."""
        service = outcome.service
        members = granted(outcome) + b"".join(spell_number(SERVICE_IDENTIFIER, it) for it in service.asked.identifiers)
        members += spell_number(RATING_GROUP, service.asked.group) if service.asked.group is not None else b""
        members += self.validity(outcome, is_session) + spell_number(RESULT_CODE, outcome.result) + final(outcome)
        return spell(SERVICES, members)

    def validity(self, outcome, is_session):
        """How long a grant of a session may be used."""
        return spell_number(VALIDITY_TIME, self.plan.validity) if is_session and outcome.granted is not None else b""


def granted(outcome):
    """The Granted-Service-Unit, in the unit of the service's group."""
    if outcome.granted is None:
        return b""
    if outcome.service.unit == "time":
        return spell(GRANTED, spell_number(TIME, outcome.granted))
    code = TOTAL_OCTETS if outcome.service.unit == "octets" else SPECIFIC_UNITS
    return spell(GRANTED, spell_long(code, outcome.granted))


def final(outcome):
    """The Final-Unit-Indication of a grant that is the last."""
    return spell(FINAL_UNIT_INDICATION, spell_number(FINAL_UNIT_ACTION, 0)) if outcome.is_final else b""


CHECKS = {CAPABILITIES: check_capabilities, WATCHDOG: check_watchdog, DISCONNECT: check_disconnect}
