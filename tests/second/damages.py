"""Damages to what was seen of a server, by the judgement of books.py that has to find each. A damage takes what was seen, and how it was judged without a
damage.
"""

import copy
import math

from books import whole
from charging import USER_UNKNOWN, Outcome
from stores import EXPIRED, TOPPED_UP, Act, read_record, write_record


def turned(octets):
    """The octets with the last bit turned."""
    return octets[:-1] + bytes([octets[-1] ^ 1])


def frames_of(seen, holds):
    """Messages that were answered."""
    return [frame for visit in seen.visits for frame in visit.frames if frame.told and holds(frame)]


def answer_is_turned(seen, books):
    frame = frames_of(seen, lambda it: it.request)[-1]
    frame.told = turned(frame.told)


def base_answer_is_turned(seen, books):
    frame = frames_of(seen, lambda it: not it.request)[-1]
    frame.told = turned(frame.told)


def answers_are_exchanged(seen, books):
    """Of two requests one behind the other."""
    frames = frames_of(seen, lambda it: it.request)
    one, other = next((one, other) for one, other in zip(frames, frames[1:]) if one.told[20:] != other.told[20:])
    one.told, other.told = one.told[:20] + other.told[20:], other.told[:20] + one.told[20:]


def answer_is_lost(seen, books):
    next(frame for visit in seen.visits if visit.is_whole for frame in visit.frames if frame.request).told = None


def base_answer_is_lost(seen, books):
    next(frame for visit in seen.visits if visit.is_whole for frame in visit.frames if frame.told and not frame.request).told = None


def answer_comes_twice(seen, books):
    seen.visits[-1].strays.append(frames_of(seen, lambda it: it.request)[0].told)


def answer_is_cut(seen, books):
    next(visit for visit in seen.visits if visit.is_orderly).got = b"\1\0"


def connection_is_dropped(seen, books):
    seen.visits[-1].is_dropped = True


def answer_is_late(seen, books):
    seen.visits[-1].is_late = True


def answer_before_the_end_is_lost(seen, books):
    """Over a connection that a message has closed."""
    closed = [visit for visit in seen.visits if visit.is_orderly and not visit.is_whole]
    next(frame for visit in closed for frame in visit.frames if frame.answer and not frame.request).told = None


def user_is_unknown(seen, books):
    """A subscriber who has had an account for long."""
    frame = frames_of(seen, lambda it: it.request and it.request.subscriber in books.times and it.sent > books.times[it.request.subscriber][0].high)[0]
    frame.told = whole(frame, books.judge.told(frame.request, Outcome(USER_UNKNOWN)))


def is_opened_by_one(books, frame):
    """Whether a request names nobody, and its session had but one opener before."""
    if not frame.request or frame.request.subscriber:
        return False
    openers = books.openers[frame.request.session, frame.host]
    return len(openers) == 1 and openers[0][1].high < frame.sent


def nobody_is_found(seen, books):
    """A request that names nobody, of a session that one had opened for long."""
    frame = frames_of(seen, lambda it: is_opened_by_one(books, it))[0]
    frame.told = books.of_nobody(frame)


# Acts. A shard's acts stand in the order of their subscribers and places.


def is_request(act):
    return act.kind not in (TOPPED_UP, EXPIRED)


def is_only(books, frame):
    """Whether a request is the only one of its key, and was answered as its act."""
    request = frame.request
    if not request or not request.subscriber or (request.session, request.number) in books.of_nobodies:
        return False
    frames = books.named[request.session, request.number, request.subscriber]
    return len(frames) == 1 and frame.told in books.answer_of(frame, request.subscriber)


def request_comes_later(seen, books):
    """Behind the answer of the next act of its subscriber, in the same second."""
    for frame in frames_of(seen, lambda it: is_only(books, it)):
        request = frame.request
        place = books.accounts[request.subscriber].places[request.session, request.number]
        behind = min((time.high for time in books.times[request.subscriber][place : place + 1]), default=math.inf)
        if frame.at < behind < math.floor(frame.sent) + 1:
            frame.sent = frame.at = behind + 1e-6
            return
    raise ValueError("no such request")


def requests_are_exchanged(seen, books):
    """Two of one subscriber over one connection."""
    for visit in seen.visits:
        first = {}
        for at, frame in enumerate(visit.frames):
            if is_only(books, frame):
                other = first.setdefault(frame.request.subscriber, at)
                if other < at:
                    visit.frames[at], visit.frames[other] = visit.frames[other], visit.frames[at]
                    return
    raise ValueError("no such connection")


def last_act(seen, holds):
    """The shard and the place in it of the last act of some subscriber."""
    for rows in seen.stores:
        for at in reversed(range(len(rows.acts))):
            is_last = at + 1 == len(rows.acts) or rows.acts[at + 1][0] != rows.acts[at][0]
            if is_last and holds(read_record(rows.acts[at][2])[1]):
                return rows, at
    raise ValueError("no such act")


def act_is_lost(seen, books):
    rows, at = last_act(seen, is_request)
    del rows.acts[at]


def act_is_more(seen, books):
    """A request that nobody sent."""
    rows, at = last_act(seen, is_request)
    sub, place, body = rows.acts[at]
    act = read_record(body)[1]
    rows.acts.insert(at + 1, (sub, place + 1, write_record(act._replace(number=act.number ^ 1 << 30), 2)))


def act_is_made_twice(seen, books):
    rows, at = last_act(seen, is_request)
    sub, place, body = rows.acts[at]
    rows.acts.insert(at + 1, (sub, place + 1, body))


def change_last(seen, holds, change):
    rows, at = last_act(seen, holds)
    sub, place, body = rows.acts[at]
    rows.acts[at] = sub, place, write_record(change(read_record(body)[1]), 2)


def act_is_of_another_time(seen, books):
    change_last(seen, is_request, lambda act: act._replace(moment=act.moment + 3600))


def act_is_of_another_number(seen, books):
    change_last(seen, is_request, lambda act: act._replace(number=act.number ^ 1 << 30))


def opening_is_of_another_host(seen, books):
    for rows in seen.stores:
        for at, (sub, place, body) in enumerate(rows.acts):
            act = read_record(body)[1]
            if act.host:
                rows.acts[at] = sub, place, write_record(act._replace(host=act.host + b"x"), 2)
                return


def top_up_is_of_another_amount(seen, books):
    sub, place, body = seen.stores[0].acts[0]
    act = read_record(body)[1]
    seen.stores[0].acts[0] = sub, place, write_record(act._replace(amount=act.amount % 1000 + 12_345), 2)


def acts_are_in_another_shard(seen, books):
    one, other = next((one, other) for one, other in zip(seen.stores, seen.stores[1:]) if one.acts)
    other.acts.append(one.acts.pop())


def session_is_due(seen, books):
    """The last act of a subscriber is an expiry that ends a session."""
    rows, at = last_act(seen, lambda act: act.kind == EXPIRED and act.moment <= math.floor(seen.sweeps[-1].sent))
    del rows.acts[at]


def expiry_is_more(seen, books):
    rows, at = last_act(seen, lambda act: True)
    sub, place, _ = rows.acts[at]
    rows.acts.insert(at + 1, (sub, place + 1, write_record(Act(EXPIRED, math.floor(seen.sweeps[-1].sent)), 2)))


def place_is_missing(seen, books):
    rows, at = last_act(seen, is_request)
    sub, place, body = rows.acts[at]
    rows.acts[at] = sub, place + 1, body


def sweep_ends_more(seen, books):
    seen.sweeps[-1].answer["sessions"] += 10**6


def sweep_is_refused(seen, books):
    seen.sweeps[-1].answer["refused"] += 1


def top_up_has_another_word(seen, books):
    at = next(at for at, it in enumerate(seen.top_ups) if it.told == "done")
    seen.top_ups[at] = seen.top_ups[at]._replace(told="ceiling")


def top_up_is_no_act(seen, books):
    at = next(at for at, it in enumerate(seen.top_ups) if it.told == "done")
    seen.top_ups.append(seen.top_ups[at]._replace(ticket=2**60 + 1))


def look_has_other_funds(seen, books):
    next(it for it in seen.looks if it.answer).answer["funds"] += 1


def look_has_another_grant(seen, books):
    next(grant for it in seen.looks if it.answer for session in it.answer["sessions"] for grant in session["grants"])["units"] += 1


def look_has_more_acts(seen, books):
    next(it for it in reversed(seen.looks) if it.answer).answer["acts"] += 10**6


def look_is_late(seen, books):
    """An account as it was long ago."""
    ended = seen.runs[-1].ended
    at = next(at for at, it in enumerate(seen.looks) if it.answer and any(time.high < ended for time in books.times[it.subscriber][it.answer["acts"] :]))
    seen.looks[at] = seen.looks[at]._replace(sent=ended, at=ended)


def look_is_early(seen, books):
    """An account as it will be."""
    at = next(at for at, it in enumerate(seen.looks) if it.answer and it.answer["acts"] > 3)
    seen.looks[at] = seen.looks[at]._replace(sent=seen.runs[0].begun, at=seen.runs[0].begun)


def ledger_that_was_seen_is_another(seen, books):
    at = next(at for at, it in enumerate(seen.ledgers) if it.text)
    seen.ledgers[at] = seen.ledgers[at]._replace(text=seen.ledgers[at].text.replace("overrun", "overruns"))


def ledger_that_was_seen_is_unknown(seen, books):
    at = next(at for at, it in enumerate(seen.ledgers) if it.text)
    seen.ledgers[at] = seen.ledgers[at]._replace(text=None)


def ledger_is_another(seen, books):
    subscriber = next(it for it, text in seen.printed.items() if "overrun" in text)
    seen.printed[subscriber] = seen.printed[subscriber].replace("overrun", "overruns")


def entry_is_another(seen, books):
    entries = next(rows for rows in seen.stores if rows.entries).entries
    entries[-1] = (*entries[-1][:6], entries[-1][6] + 1)


def account_is_another(seen, books):
    accounts = next(rows for rows in seen.stores if rows.accounts).accounts
    accounts[-1] = (*accounts[-1][:2], accounts[-1][2] + 1)


def change_round(seen, at, more):
    numbers = list(seen.runs[-1].round)
    numbers[at] += more
    seen.runs[-1] = seen.runs[-1]._replace(round=tuple(numbers))


def more_requests(seen, books):
    change_round(seen, 0, 10**6)


def fewer_requests(seen, books):
    change_round(seen, 0, -(10**6))


def more_answers(seen, books):
    change_round(seen, 1, 10**6)


def fewer_answers(seen, books):
    change_round(seen, 1, -(10**6))


def one_act_more(seen, books):
    change_round(seen, 2, 1)


def change_metric(seen, name, more):
    metrics = seen.runs[-1].metrics
    metrics[next(sample for sample in metrics if sample.startswith(name))] += more


def more_acts_are_counted(seen, books):
    change_metric(seen, "dcc_acts_total", 10**6)


def fewer_acts_are_counted(seen, books):
    change_metric(seen, "dcc_acts_total", -(10**6))


def more_subscribers_are_counted(seen, books):
    change_metric(seen, "dcc_subscribers", 1)


def more_ends_are_counted(seen, books):
    change_metric(seen, "dcc_sessions_ended_total", 10**6)


DAMAGES = {
    "connections stay": [connection_is_dropped],
    "no octets answer nothing": [answer_comes_twice],
    "answers are whole": [answer_is_cut],
    "answers come in time": [answer_is_late],
    "messages are answered": [base_answer_is_turned],
    "owed answers come": [answer_is_lost, base_answer_is_lost],
    "owed answers come before the end": [answer_before_the_end_is_lost],
    "requests are answered as their acts": [answer_is_turned, answers_are_exchanged, user_is_unknown, nobody_is_found, act_is_lost],
    "places have no gap": [place_is_missing],
    "subscribers are in their shard": [acts_are_in_another_shard],
    "acts are of what was sent": [act_is_more, act_is_made_twice, act_is_of_another_time, act_is_of_another_number, opening_is_of_another_host,
                                  top_up_is_of_another_amount, expiry_is_more],
    "acts stand in their time": [request_comes_later],
    "acts of a connection stand in its order": [requests_are_exchanged],
    "top-ups have their words": [top_up_has_another_word, top_up_is_no_act],
    "sweeps end the sessions that are due": [session_is_due],
    "sweeps are told": [sweep_ends_more],
    "no sweep is refused": [sweep_is_refused],
    "accounts are seen as their acts are": [look_has_other_funds, look_has_another_grant],
    "accounts are seen in their time": [look_is_late, look_is_early],
    "accounts that are seen have acts": [look_has_more_acts],
    "ledgers are seen as their acts are": [ledger_that_was_seen_is_another, ledger_that_was_seen_is_unknown],
    "ledgers are of the acts": [ledger_is_another],
    "rows are of the acts": [entry_is_another, account_is_another],
    "a round has its requests": [more_requests, fewer_requests],
    "a round has its answers": [more_answers, fewer_answers],
    "a round has its acts": [one_act_more],
    "acts are counted": [more_acts_are_counted, fewer_acts_are_counted],
    "subscribers are counted": [more_subscribers_are_counted],
    "ended sessions are counted": [more_ends_are_counted],
}  # fmt: skip


def damaged(seen, books, damage):
    """What was seen, with a damage; nothing if there is nothing to be damaged so."""
    other = copy.deepcopy(seen)
    try:
        damage(other, books)
    except (IndexError, StopIteration, ValueError):
        return None
    return other
