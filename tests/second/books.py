"""Judges all that was seen of a server by the acts in its stores.

Each subscriber's acts are taken in the order of the store, at their moments, as the rules take them. Each act has to be of a message, a top-up or a sweep
that was sent; each answer has to be that of the act that the request made or repeats; and what is refused for the account as it is has to be so at
some moment between the request and its answer.
"""

import math
from collections import Counter, defaultdict
from typing import NamedTuple

from charging import MOST_FUNDS, MOST_SESSIONS, SUCCESS, USER_UNKNOWN, Account, Outcome
from judge import Judge
from plans import Plan
from refusals import EVENT, INITIAL, MISSING_AVP, TERMINATION, UPDATE, Refusal, empty
from stores import EXPIRED, TOPPED_UP, Act, KeptAccount, Told, ledger, read_record, rows_of, shard_of, subscriber_of, word_of
from visits import BY_TIME, NEVER, Door
from wire import RESULT_CODE, SUBSCRIPTION_ID, spell_number

# What is judged.
JUDGEMENTS = (
    # Of connections.
    "connections stay", "no octets answer nothing", "answers are whole", "answers come in time", "messages are answered", "owed answers come",
    "owed answers come before the end", "requests are answered as their acts",
    # Of acts.
    "places have no gap", "subscribers are in their shard", "acts are of what was sent", "acts stand in their time",
    "acts of a connection stand in its order",
    # Of operators.
    "top-ups have their words", "sweeps end the sessions that are due", "sweeps are told", "no sweep is refused", "accounts are seen as their acts are",
    "accounts are seen in their time", "accounts that are seen have acts", "ledgers are seen as their acts are", "ledgers are of the acts",
    # Of stores, rounds and metrics.
    "rows are of the acts", "a round has its requests", "a round has its answers", "a round has its acts", "acts are counted", "subscribers are counted",
    "ended sessions are counted",
)  # fmt: skip
# A Result-Code, up to its number.
RESULT = spell_number(RESULT_CODE, 0)[:8]


class Time(NamedTuple):
    """When an act was made at the earliest, and when at the latest."""

    low: float
    high: float


class Nobody(Door):
    """A door that finds nobody who opened a session."""

    def credit_control(self, request, host, moment):
        raise Refusal(MISSING_AVP, empty(SUBSCRIPTION_ID))


def whole(frame, body):
    """The answer to a request, of the body that its act has."""
    length = len(frame.answer) + len(body)
    return frame.answer[:1] + length.to_bytes(3, "big") + frame.answer[4:20] + body + frame.answer[20:]


def first_answer(frames, body):
    """When the first of these requests was answered by an act."""
    return min((frame.at for frame in frames if frame.told == whole(frame, body)), default=math.inf)


class Books:
    """What was seen of a server, and what its stores say of it."""

    def __init__(self, seen):
        self.seen, self.plan = seen, Plan(seen.plan_text)
        self.judge = Judge(self.plan)
        # How often each judgement was made, and what is said where it does not hold.
        self.compared, self.faults = Counter(), defaultdict(list)
        # Requests by their session and number, and by the subscriber that they name or by their host; top-ups by their tickets; looks by the number of acts.
        self.named, self.nameless, self.of_nobodies = defaultdict(list), defaultdict(list), set()
        self.top_ups, self.looks, self.ledgers, self.looked = defaultdict(list), defaultdict(list), defaultdict(list), []
        # Of each subscriber its account, and the times of its acts; who opened which session from which host, and when; how many sessions sweeps ended.
        self.accounts, self.times, self.openers, self.ended = {}, {}, defaultdict(list), 0
        # Acts that a request may have made or repeated that names nobody, and counts.
        self.unnamed_acts, self.unnamed, self.at_once, self.choices = [], Counter(), 0, 0

    def check(self, judgement, holds, *said):
        """Counts whether a judgement holds."""
        if judgement not in JUDGEMENTS:
            raise KeyError(judgement)
        self.compared[judgement] += 1
        if not holds:
            self.faults[judgement].append(" ".join(map(str, said)))

    def judged(self):
        """Judges all of it."""
        self.sort()
        for subscriber in {it.subscriber for it in self.seen.looks}:
            self.seen_then(subscriber, None, 0)
        for shard, rows in enumerate(self.seen.stores):
            self.shard(shard, rows)
        self.in_order()
        for visit in self.seen.visits:
            self.visit(visit)
        for top_up in self.seen.top_ups:
            self.top_up(top_up)
        self.looked_in_time()
        self.swept()
        self.told_of_round()
        for shard, rows in enumerate(self.seen.stores):
            wanted = rows_of(self.plan, shard, self.accounts, 2)
            for name, found, right in zip(rows._fields, rows, wanted):
                self.check("rows are of the acts", found == right, f"shard {shard}, {name}", *difference(found, right))
        unseen = set(self.accounts) - {it.subscriber for it in self.seen.ledgers}
        self.check("ledgers are seen as their acts are", not unseen, "never seen", *map(word_of, unseen))
        for subscriber, printed in self.seen.printed.items():
            account = self.accounts.get(subscriber)
            right = ledger(subscriber, account) if account else f"account {word_of(subscriber)} unknown\n"
            self.check("ledgers are of the acts", printed == right, *difference(str(printed).splitlines(), right.splitlines()))
        return self

    def counted(self):
        """How much was seen."""
        seen, frames = self.seen, [frame for visit in self.seen.visits for frame in visit.frames]
        results = Counter(str(int.from_bytes(it.told[it.told.index(RESULT) + 8 :][:4], "big")) for it in frames if it.told)
        requests, acts = (sum(run.round[at] for run in seen.runs) for at in (0, 2))
        return results + self.unnamed + Counter({
            "events": len(frames) + len(seen.top_ups) + len(seen.sweeps) + len(seen.looks), "requests": requests, "acts": acts, "connections": len(seen.visits),
            "batches": int(self.metric("dcc_batches_total")), "at once": self.at_once, "asked again": seen.again, "ended by sweeps": self.ended,
            "answers of several that may be": self.choices,
        })  # fmt: skip

    def sort(self):
        """Finds requests, top-ups and looks by what they have in common with acts."""
        for visit in self.seen.visits:
            for frame in visit.frames:
                if frame.request:
                    request = frame.request
                    key = request.session, request.number, request.subscriber or frame.host
                    (self.named if request.subscriber else self.nameless)[key].append(frame)
        self.of_nobodies = {key[:2] for key in self.nameless}
        for top_up in self.seen.top_ups:
            self.top_ups[top_up.subscriber, top_up.ticket].append(top_up)
        for look in self.seen.looks:
            self.looks[look.subscriber, look.acts].append(look)
        for look in self.seen.ledgers:
            self.ledgers[look.subscriber, look.acts].append(look)

    # Acts.

    def shard(self, shard, rows):
        """Takes the acts of a store."""
        records = defaultdict(list)
        for sub, place, body in rows.acts:
            records[subscriber_of(sub)].append((place, body))
        for subscriber, bodies in records.items():
            places = [place for place, _ in bodies]
            self.check("places have no gap", places == list(range(1, len(places) + 1)), word_of(subscriber))
            is_own = shard_of(subscriber, self.plan.shards) == shard
            self.check("subscribers are in their shard", is_own, word_of(subscriber), shard)
            if is_own:
                self.account(subscriber, [body for _, body in bodies])

    def account(self, subscriber, bodies):
        """Takes the acts of a subscriber one behind another."""
        account, times = KeptAccount(self.plan), []
        account.opened_from, account.places = {}, {}
        self.accounts[subscriber], self.times[subscriber] = account, times
        for place, body in enumerate(bodies, 1):
            version, act = read_record(body)
            take = {TOPPED_UP: self.topped_up, EXPIRED: self.expired}.get(act.kind, self.requested)
            time = take(subscriber, account, act)
            self.check("acts are of what was sent", version == 2 and time, f"act {place} of {word_of(subscriber)}", act)
            if not time:
                return
            account.keep(act)
            times.append(time)
            self.seen_then(subscriber, account, place)

    def in_order(self):
        """An act that was answered stands before each that was asked for later. An answer to a request that names nobody is an answer of the act only if
        the session has but one opener.
        """
        for subscriber, at, nameless, body in self.unnamed_acts:
            if len(self.openers[nameless[0].request.session, nameless[0].host]) == 1:
                time = self.times[subscriber][at]
                self.times[subscriber][at] = time._replace(high=min(time.high, first_answer(nameless, body)))
        for subscriber, times in self.times.items():
            latest = -math.inf
            for at, time in enumerate(times):
                self.check("acts stand in their time", latest <= time.high, f"act {at + 1} of {word_of(subscriber)}")
                self.at_once += at > 0 and time.low < times[at - 1].high
                latest = max(latest, time.low)

    def topped_up(self, subscriber, account, act):
        """The time of a top-up, which is made if an operator asked for it; so are the others."""
        asked = self.top_ups[subscriber, act.ticket]
        makers = [it for it in asked if it.amount == act.amount and math.floor(it.sent) <= act.moment <= it.at]
        if act.ticket in account.tickets or not makers:
            return None
        account.top_up(act.ticket, act.amount)
        return Time(min(it.sent for it in makers), min((it.at for it in asked if it.told in ("done", "ceiling")), default=math.inf))

    def expired(self, _subscriber, account, act):
        """The time of an expiry, which ends a session at a moment of a sweep."""
        due = [session for session in account.open.values() if session.deadline <= act.moment]
        calls = [Time(it.sent, it.at) for it in self.seen.sweeps]
        if self.seen.sweeping != NEVER:
            calls += [Time(run.begun, run.ended) for run in self.seen.runs]
        calls = [it for it in calls if math.floor(it.low) <= act.moment <= it.high]
        if not due or not calls:
            return None
        self.ended += len(due)
        account.expire(act.moment)
        return Time(max(act.moment, min(it.low for it in calls)), max(it.high for it in calls))

    def requested(self, subscriber, account, act):
        """The time of the act of a request."""
        key = act.session, act.number
        named, nameless = self.named[*key, subscriber], []
        if act.kind - 1 in (UPDATE, TERMINATION) and act.session in account.opened_from:
            nameless = self.nameless[*key, account.opened_from[act.session]]
        makers = [it for it in named + nameless if self.makes(it, act)]
        if key in account.kept or not makers:
            return None
        request = makers[0].request._replace(subscriber=subscriber)
        outcome = Account.answer(account, request, act.moment, MOST_SESSIONS)
        account.kept[key] = body = self.judge.told(request, outcome)
        account.places[key] = len(account.acts) + 1
        time = Time(min(it.sent for it in makers), first_answer(named, body))
        if nameless:
            self.unnamed_acts.append((subscriber, len(self.times[subscriber]), nameless, body))
        if request.kind == INITIAL and outcome.result == SUCCESS:
            account.opened_from[act.session] = act.host
            self.openers[act.session, act.host].append((subscriber, time))
        return time

    def makes(self, frame, act):
        """Whether an act is what a request comes to in the books, at a moment at which it was on its way."""
        request = frame.request
        latest = frame.at or next(run.ended for run in self.seen.runs if frame.sent <= run.ended)
        if request.kind + 1 != act.kind or not math.floor(frame.sent) <= act.moment <= latest:
            return False
        services = [self.plan.service(asked, request.kind == EVENT, act.moment) for asked in request.services]
        told = tuple(Told(request.is_multi, it.asked.group, it.asked.identifiers, it.requested, it.used, it.unit, it.tariff) for it in services)
        limit, host = (MOST_SESSIONS, frame.host) if request.kind == INITIAL else (None, None)
        return act == Act(request.kind + 1, act.moment, None, None, request.session, request.number, limit, host, request.action, told)

    # Answers.

    def visit(self, visit):
        """Judges what came back over a connection."""
        self.check("connections stay", not visit.is_dropped)
        self.check("no octets answer nothing", not visit.strays, visit.strays)
        self.check("answers are whole", not (visit.got and visit.is_orderly), visit.got)
        self.check("answers come in time", not visit.is_late)
        self.in_line(visit)
        for frame in visit.frames:
            if frame.told is None:
                self.check("owed answers come", not (frame.answer and visit.is_whole), frame.octets.hex())
                # An answer of a shard may come too late for a connection that a message has closed; no other answer does.
                is_at_once = frame.answer and frame.request is None and visit.is_orderly
                self.check("owed answers come before the end", not is_at_once, frame.octets.hex())
                continue
            right = [frame.answer] if frame.request is None else self.answers(frame)
            if frame.request and not frame.request.subscriber:
                self.unnamed["named nobody, of nobody" if frame.told == self.of_nobody(frame) else "named nobody, of an opener"] += 1
            self.choices += len(set(right)) > 1
            judgement = "messages are answered" if frame.request is None else "requests are answered as their acts"
            self.check(judgement, frame.told in right, frame.octets.hex(), "is answered", frame.told.hex(), "and not", *(it.hex() for it in right))

    def in_line(self, visit):
        """Requests of one subscriber over one connection are taken in the order in which they were sent: an act that only one of them can have made stands
        behind those of the requests before.
        """
        latest = Counter()
        for frame in visit.frames:
            request = frame.request
            account = self.accounts.get(request.subscriber) if request else None
            key = request and (request.session, request.number)
            place = account.places.get(key) if account else None
            if not place:
                continue
            if len(self.named[*key, request.subscriber]) == 1 and key not in self.of_nobodies:
                is_behind = place > latest[request.subscriber]
                self.check("acts of a connection stand in its order", is_behind, f"act {place} of {word_of(request.subscriber)}")
            if frame.told == whole(frame, account.kept[key]):
                latest[request.subscriber] = max(latest[request.subscriber], place)

    def answers(self, frame):
        """What a request may be answered."""
        if frame.request.subscriber is None:
            return self.answers_to_nobody(frame)
        found = self.answer_of(frame, frame.request.subscriber)
        times = self.times.get(frame.request.subscriber)
        if not times or frame.sent <= times[0].high:
            found.append(whole(frame, self.judge.told(frame.request, Outcome(USER_UNKNOWN))))
        return found

    def answer_of(self, frame, subscriber):
        """The answer of the act that a request made or repeats, if there is one."""
        account, key = self.accounts.get(subscriber), (frame.request.session, frame.request.number)
        return [whole(frame, account.kept[key])] if account and key in account.kept else []

    def answers_to_nobody(self, frame):
        """By who had opened the session from this host at a moment between the request and its answer: that is nobody's if nobody had, or several."""
        openers = self.openers[frame.request.session, frame.host]
        before = [subscriber for subscriber, time in openers if time.high < frame.sent]
        by_then = [subscriber for subscriber, time in openers if time.low <= frame.at]
        found = []
        if not before or len(before) > 1 or len(by_then) > 1:
            found.append(self.of_nobody(frame))
        for subscriber in by_then:
            if not before or before == [subscriber]:
                found += self.answer_of(frame, subscriber)
        return found

    def of_nobody(self, frame):
        """The answer to a request that names nobody and belongs to nobody."""
        door = Nobody(self.plan)
        door.open(0, frame.host)
        return door.reply(0, "open", 0, frame.octets)[0]

    # Operators.

    def top_up(self, top_up):
        """Judges the word that an operator got."""
        account = self.accounts.get(top_up.subscriber)
        is_added = account.tickets.get(top_up.ticket) if account else None
        right = "bad" if not 1 <= top_up.amount <= MOST_FUNDS else {True: "done", False: "ceiling", None: "an act"}[is_added]
        self.check("top-ups have their words", top_up.told == right, f"not {right}", top_up)

    def seen_then(self, subscriber, account, count):
        """Judges the looks at an account that had so many acts."""
        for look in self.looks.pop((subscriber, count), []):
            right = seen_of(subscriber, account, count) if count else None
            self.check("accounts are seen as their acts are", sorted_sessions(look.answer) == right, look.answer, "and not", right)
            self.looked.append((count, look))
        for look in self.ledgers.get((subscriber, count), []):
            right = ledger(subscriber, account) if count else None
            self.check("ledgers are seen as their acts are", look.text == right, word_of(subscriber), *difference([look.text], [right]))

    def looked_in_time(self):
        """An account is seen with the acts that were answered before, and without those that were asked for later."""
        for count, look in self.looked:
            times = self.times.get(look.subscriber, [])
            before, behind = max((it.low for it in times[:count]), default=-math.inf), min((it.high for it in times[count:]), default=math.inf)
            self.check("accounts are seen in their time", before <= look.at and look.sent <= behind, look)
        others = [look for looks in self.looks.values() for look in looks]
        self.check("accounts that are seen have acts", not others, others)

    def metric(self, name):
        """What a family counted in all runs and shards."""
        return sum(count for run in self.seen.runs for sample, count in run.metrics.items() if sample.startswith(name + "{"))

    def swept(self):
        """Judges what was told of sweeps, some of which may have come by themselves. Behind the last of them nothing was asked for."""
        told = sum(it.answer.get("sessions", 0) for it in self.seen.sweeps)
        is_right = told == self.ended or self.seen.sweeping != NEVER and told < self.ended
        self.check("sweeps are told", is_right, f"{told} sessions were ended, and by the books {self.ended}")
        self.check("no sweep is refused", all(it.answer.get("refused") == 0 for it in self.seen.sweeps), self.seen.sweeps)
        last = math.floor(self.seen.sweeps[-1].sent)
        for subscriber, account in self.accounts.items():
            left = [name for name, session in account.open.items() if session.deadline <= last]
            self.check("sweeps end the sessions that are due", not left, word_of(subscriber), left)

    def told_of_round(self):
        """Judges the numbers of rounds and the metrics."""
        requests, answers, acts = (sum(run.round[it] for run in self.seen.runs) for it in range(3))
        frames = [frame for visit in self.seen.visits for frame in visit.frames]
        asked, told = [it for it in frames if it.request], [it for it in frames if it.told]
        # A request that names nobody and belongs to nobody comes to no shard.
        handed = [it for it in asked if it.told and (it.request.subscriber or it.told != self.of_nobody(it))]
        self.check("a round has its acts", acts == sum(len(rows.acts) for rows in self.seen.stores), f"{acts} acts")
        self.check("a round has its requests", len(handed) <= requests <= len(asked), f"{requests} requests")
        self.check("a round has its answers", len(told) <= answers <= sum(bool(it.answer) for it in frames), f"{answers} answers")
        for shard, rows in enumerate(self.seen.stores):
            acts, subscribers = (self.seen.runs[-1].metrics.get(f'{name}{{shard="{shard}"}}') for name in ("dcc_acts_total", "dcc_subscribers"))
            # A sweep by time may come behind the metrics.
            least = sum(read_record(body)[1].kind != EXPIRED for _, _, body in rows.acts) if self.seen.sweeping == BY_TIME else len(rows.acts)
            self.check("acts are counted", least <= acts <= len(rows.acts), f"{acts} in shard {shard}")
            self.check("subscribers are counted", subscribers == len(rows.accounts), f"{subscribers} in shard {shard}")
        counted = self.metric("dcc_sessions_ended_total")
        is_right = counted == self.ended or self.seen.sweeping == BY_TIME and counted < self.ended
        self.check("ended sessions are counted", is_right, f"{counted}, and by the books {self.ended}")


def seen_of(subscriber, account, count):
    """An account as an operator sees it."""
    sessions = []
    for name, session in account.open.items():
        grants = []
        for (group, first), grant in session.live.items():
            unit = account.plan.units[account.plan.default_group if group is None else group]
            key = ({} if group is None else {"group": group}) | ({"service": first[0]} if first else {})
            grants.append(key | {"unit": unit, "units": grant.units, "price": grant.price})
        sessions.append({"session": name.decode("latin-1"), "deadline": session.deadline, "grants": grants})
    funds, free = account.funds, account.free()
    told = {"subscriber": word_of(subscriber), "funds": funds, "reserved": funds - free, "free": free, "overrun": account.overrun, "acts": count}
    return sorted_sessions({**told, "sessions": sessions})


def sorted_sessions(told):
    """An account, with its sessions and their grants in one order."""
    if told is None:
        return None
    sessions = [{**it, "grants": sorted(it["grants"], key=lambda grant: sorted(grant.items(), key=str))} for it in told["sessions"]]
    return {**told, "sessions": sorted(sessions, key=lambda it: it["session"])}


def difference(found, right):
    """What stands in one list alone, cut."""
    return [f"{[it for it in found if it not in right]}"[:500], "and not", f"{[it for it in right if it not in found]}"[:500]] if found != right else []
