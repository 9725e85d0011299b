"""Stores of both layouts, written and read by docs/FORMATS.md alone: records of acts of both versions, the rows of the tables, and ledgers; and a
judge that keeps what stands in them.
"""

import os
import shutil
import sqlite3
import struct
import tempfile
from datetime import datetime, timezone
from typing import NamedTuple

from charging import CHARGE, DEBIT, MOST_FUNDS, MOST_SESSIONS, REPAYMENT, TOP_UP, Account
from judge import Judge
from plans import Tariff
from refusals import EVENT, INITIAL, MISSING_AVP, MOST_SERVICES, Refusal, empty, read_credit_control
from scripts import HOSTS, TEMPERS, Maker
from wire import HEADER_OCTETS, SUBSCRIPTION_ID, read_list

FEW_SESSIONS, FEW_SERVICES = 64, 16
# The kinds of acts in a record: those between are of requests, a number above their type.
TOPPED_UP, EXPIRED = 1, 6
UNITS = [None, "octets", "time", "units"]
WORDS = {TOP_UP: "TOPUP", DEBIT: "DEBIT", REPAYMENT: "REFUND", CHARGE: "CHARGE"}
TABLES = [
    "CREATE TABLE setting (id INTEGER PRIMARY KEY, layout INTEGER NOT NULL, shard INTEGER NOT NULL, shards INTEGER NOT NULL, host TEXT NOT NULL, "
    "realm TEXT NOT NULL, validity INTEGER NOT NULL, hold INTEGER NOT NULL, currency INTEGER NOT NULL, exponent INTEGER NOT NULL) STRICT",
    "CREATE TABLE act (sub BLOB NOT NULL, place INTEGER NOT NULL, body BLOB NOT NULL, PRIMARY KEY (sub, place)) STRICT",
    "CREATE TABLE entry (sub BLOB NOT NULL, place INTEGER NOT NULL, line INTEGER NOT NULL, kind INTEGER NOT NULL, grp INTEGER, units INTEGER NOT "
    "NULL, amount INTEGER NOT NULL, PRIMARY KEY (sub, place, line), FOREIGN KEY (sub, place) REFERENCES act (sub, place)) STRICT",
    "CREATE TABLE account (sub BLOB NOT NULL PRIMARY KEY, acts INTEGER NOT NULL, funds INTEGER NOT NULL) STRICT",
]
SETTING, ACTS = "SELECT * FROM setting", "SELECT sub, place, body FROM act ORDER BY sub, place"
ENTRIES, ACCOUNTS = "SELECT * FROM entry ORDER BY sub, place, line", "SELECT * FROM account ORDER BY sub"


class Told(NamedTuple):
    """A service of an act."""

    is_multi: bool
    group: int | None
    identifiers: tuple
    asked: int | None
    used: int | None
    unit: str | None
    tariff: Tariff | None


class Act(NamedTuple):
    """What the record of an act spells. A top-up has a ticket and an amount, a request the rest; only an initial one has a limit and a host."""

    kind: int
    moment: int
    ticket: int | None = None
    amount: int | None = None
    session: bytes | None = None
    number: int | None = None
    limit: int | None = None
    host: bytes | None = None
    action: int | None = None
    services: tuple = ()


def optional(form, value):
    return b"\0" if value is None else b"\1" + struct.pack(form, value)


def write_service(told):
    octets = bytes([told.is_multi]) + optional(">I", told.group) + struct.pack(">H", len(told.identifiers))
    octets += b"".join(struct.pack(">I", it) for it in told.identifiers) + optional(">Q", told.asked) + optional(">Q", told.used)
    return octets + bytes([UNITS.index(told.unit)]) + (b"\1" + struct.pack(">IQ", *told.tariff) if told.tariff else b"\0")


def write_record(act, version):
    """The record of an act. One of version 1 has neither the limit of an initial request nor its host."""
    octets = struct.pack(">BBQ", version, act.kind, act.moment)
    if act.kind == EXPIRED:
        return octets
    if act.kind == TOPPED_UP:
        return octets + struct.pack(">QQ", act.ticket, act.amount)
    octets += bytes([len(act.session)]) + act.session + struct.pack(">I", act.number)
    if act.kind == INITIAL + 1 and version == 2:
        octets += struct.pack(">HB", act.limit, len(act.host or b"")) + (act.host or b"")
    if act.kind == EVENT + 1:
        octets += bytes([act.action])
    return octets + bytes([len(act.services)]) + b"".join(map(write_service, act.services))


class Reader:
    """Octets that are read from the left."""

    def __init__(self, octets):
        self.octets = octets

    def take(self, count):
        taken, self.octets = self.octets[:count], self.octets[count:]
        if len(taken) < count:
            raise ValueError("octets are missing")
        return taken

    def number(self, count):
        return int.from_bytes(self.take(count), "big")

    def optional(self, count):
        return self.number(count) if self.flag() else None

    def flag(self):
        flag = self.number(1)
        if flag > 1:
            raise ValueError("a flag that is neither 0 nor 1")
        return flag == 1

    def service(self):
        is_multi, group = self.flag(), self.optional(4)
        identifiers = tuple(self.number(4) for _ in range(self.number(2)))
        asked, used, unit = self.optional(8), self.optional(8), UNITS[self.number(1)]
        return Told(is_multi, group, identifiers, asked, used, unit, Tariff(self.number(4), self.number(8)) if self.flag() else None)


def read_record(octets):
    """The version of a record, and its act. One of version 1 was judged by 64 sessions, and its host isn't known."""
    reader = Reader(octets)
    version, kind, moment = reader.number(1), reader.number(1), reader.number(8)
    if version not in (1, 2) or not TOPPED_UP <= kind <= EXPIRED:
        raise ValueError("another version or another kind")
    act = Act(kind, moment)
    if kind == TOPPED_UP:
        act = act._replace(ticket=reader.number(8), amount=reader.number(8))
    elif kind != EXPIRED:
        act = act._replace(session=reader.take(reader.number(1)), number=reader.number(4))
        if kind == INITIAL + 1:
            act = act._replace(limit=FEW_SESSIONS)
            if version == 2:
                act = act._replace(limit=reader.number(2), host=reader.take(reader.number(1)) or None)
        if kind == EVENT + 1:
            act = act._replace(action=reader.number(1))
        act = act._replace(services=tuple(reader.service() for _ in range(reader.number(1))))
    if reader.octets or write_record(act, version) != octets:
        raise ValueError("octets that aren't those of their act")
    return version, act


class KeptAccount(Account):
    """An account with its acts, each with the entries that it left."""

    def __init__(self, plan):
        super().__init__(plan)
        self.acts, self.told = [], 0

    def keep(self, act):
        self.acts.append((act, self.entries[self.told :]))
        self.told = len(self.entries)

    def answer(self, request, moment, most_sessions):
        outcome = super().answer(request, moment, most_sessions)
        services = [self.plan.service(asked, request.kind == EVENT, moment) for asked in request.services]
        told = [Told(request.is_multi, it.asked.group, it.asked.identifiers, it.requested, it.used, it.unit, it.tariff) for it in services]
        limit = most_sessions if request.kind == INITIAL else None
        self.keep(Act(request.kind + 1, moment, None, None, request.session, request.number, limit, None, request.action, tuple(told)))
        return outcome


class Keeper(Judge):
    """A judge that keeps the acts of each account: by the rules of layout 1, until its store is upgraded."""

    def __init__(self, plan):
        super().__init__(plan, KeptAccount, FEW_SESSIONS)

    def topup(self, moment, subscriber, ticket, amount):
        account = self.accounts.get(subscriber)
        is_new = 1 <= amount <= MOST_FUNDS and not (account and ticket in account.tickets)
        printed = super().topup(moment, subscriber, ticket, amount)
        if is_new:
            self.accounts[subscriber].keep(Act(TOPPED_UP, moment, ticket, amount))
        return printed

    def sweep(self, moment):
        for account in self.accounts.values():
            if any(session.deadline <= moment for session in account.open.values()):
                account.keep(Act(EXPIRED, moment))
        super().sweep(moment)

    def opener(self, session, host):
        """Before the upgrade nobody is looked for."""
        if self.most_sessions == FEW_SESSIONS:
            raise Refusal(MISSING_AVP, empty(SUBSCRIPTION_ID))
        return super().opener(session, host)

    def is_upgraded(self):
        """From here on the limit is that of layout 2. Who opened a session before, and from where, isn't known."""
        self.most_sessions, self.openers = MOST_SESSIONS, {}


class OldMaker(Maker):
    """A maker of what stands in a store of layout 1, and of requests to the server that has upgraded it."""

    most_sessions, most_services = FEW_SESSIONS, FEW_SERVICES - 1

    def make_judge(self, plan):
        return Keeper(plan)

    def fill(self, count):
        """About so many events."""
        self.begin()
        self.go_on(TEMPERS[self.temper], count)
        return self

    def upgrade(self, now):
        """From here on each message is of peer 1, and of this moment."""
        self.judge.is_upgraded()
        self.most_sessions, self.most_services = MOST_SESSIONS, MOST_SERVICES
        self.say(f"open 1 {HOSTS[1]}")
        self.peer_number, self.opener_peer, self.step = lambda: 1, lambda message: 1, lambda: now

    def requests(self, count):
        """So many requests, some of them repeats of earlier ones, each with its answer, in octets."""
        lines, printed = len(self.lines), len(self.printed)
        self.go_on({"session": 50, "event": 20, "repeat": 30}, count)
        asked = [line.split()[3] for line in self.lines[lines:]]
        told = [line.split(" ", 1)[1].removeprefix("answer 1 ") for line in self.printed[printed:]]
        return list(zip(map(bytes.fromhex, asked), map(bytes.fromhex, told), strict=True))


# Ledgers.


def word_of(subscriber):
    return f"{subscriber[0]}:{subscriber[1].decode()}"


def name_of(act):
    if act.kind == TOPPED_UP:
        return f"ticket {act.ticket}"
    is_plain = all(0x21 <= octet <= 0x7E for octet in act.session) and not act.session.startswith(b"hex:")
    return act.session.decode() if is_plain else f"hex:{act.session.hex()}"


def ledger(subscriber, account):
    """The page of a subscriber."""
    lines, funds = [f"account {word_of(subscriber)}"], 0
    for place, (act, entries) in enumerate(account.acts, 1):
        moment = datetime.fromtimestamp(act.moment, timezone.utc).strftime("%Y-%m-%dT%H:%M:%SZ")
        for entry in entries:
            funds += entry.amount
            group = "-" if entry.group is None else entry.group
            lines.append(f"{place:>8} {moment} {WORDS[entry.kind]:<6} {group:>10} {entry.units:>13} {entry.amount:>+20} {funds:>20} {name_of(act)}")
    return "\n".join([*lines, f"funds {account.funds} reserved {account.funds - account.free()} overrun {account.overrun}", ""])


# Tables.


def key_of(subscriber):
    return bytes([subscriber[0]]) + subscriber[1]


def subscriber_of(key):
    return key[0], key[1:]


def shard_of(subscriber, shards):
    return sum(key_of(subscriber)) % shards


class Rows(NamedTuple):
    """The rows of the four tables, each in the order of its key."""

    setting: list
    acts: list
    entries: list
    accounts: list

    def records(self):
        """Each act's version, and the act, by its subscriber and place."""
        return {(sub, place): read_record(body) for sub, place, body in self.acts}


def key_of_request(octets):
    """The subscriber, the session and the number of a request that names somebody."""
    request = read_credit_control(read_list(octets[HEADER_OCTETS:]))
    return key_of(request.subscriber), request.session, request.number


def setting_row(layout, plan, shard):
    return 1, layout, shard, plan.shards, plan.host.decode(), plan.realm.decode(), plan.validity, plan.hold, plan.currency, plan.exponent


def rows_of(plan, shard, accounts, layout):
    """What stands in the tables of a shard that has these accounts."""
    acts, entries, totals = [], [], []
    for subscriber in sorted((it for it in accounts if shard_of(it, plan.shards) == shard), key=key_of):
        key, account = key_of(subscriber), accounts[subscriber]
        for place, (act, left) in enumerate(account.acts, 1):
            acts.append((key, place, write_record(act, layout)))
            entries += [(key, place, line, *entry) for line, entry in enumerate(left, 1)]
        if account.acts:
            totals.append((key, len(account.acts), account.funds))
    return Rows([setting_row(layout, plan, shard)], acts, entries, totals)


def upgraded(rows):
    """The rows of a store of layout 1 as they are in layout 2."""
    setting = [(row[0], 2, *row[2:]) for row in rows.setting]
    return rows._replace(setting=setting, acts=[(sub, place, write_record(read_record(body)[1], 2)) for sub, place, body in rows.acts])


def downgraded(rows):
    """The rows of a store of layout 2 as they would be in layout 1, by acts that are judged alike by both limits."""
    setting = [(row[0], 1, *row[2:]) for row in rows.setting]
    return rows._replace(setting=setting, acts=[(sub, place, write_record(read_record(body)[1], 1)) for sub, place, body in rows.acts])


def read_rows(path):
    """The rows of a store that no program has open, by a copy, so that its files stay as they are."""
    with tempfile.TemporaryDirectory() as room:
        for end in ("", "-wal"):
            if os.path.exists(f"{path}{end}"):
                shutil.copy(f"{path}{end}", f"{room}/copy.db{end}")
        connection = sqlite3.connect(f"{room}/copy.db")
        found = Rows(*(connection.execute(query).fetchall() for query in (SETTING, ACTS, ENTRIES, ACCOUNTS)))
        connection.close()
    return found


def write_rows(path, rows, by_acts=False):
    """A store of these rows in one file; or, by acts, what its file and its log are when each act was written behind another, in a transaction of its own."""
    connection = sqlite3.connect(path, isolation_level=None)
    connection.execute("PRAGMA journal_mode = WAL").fetchall()
    connection.execute("PRAGMA wal_autocheckpoint = 0").fetchall()
    connection.execute("BEGIN")
    for text in TABLES:
        connection.execute(text)
    connection.execute(f"INSERT INTO setting VALUES ({', '.join('?' * 10)})", rows.setting[0])
    if not by_acts:
        connection.executemany("INSERT INTO act VALUES (?, ?, ?)", rows.acts)
        connection.executemany("INSERT INTO entry VALUES (?, ?, ?, ?, ?, ?, ?)", rows.entries)
        connection.executemany("INSERT INTO account VALUES (?, ?, ?)", rows.accounts)
    connection.execute("COMMIT")
    for act in rows.acts if by_acts else []:
        write_act(connection, act, [it for it in rows.entries if it[:2] == act[:2]])
    pair = [file_octets(f"{path}{end}") for end in ("", "-wal")]
    connection.execute("PRAGMA wal_checkpoint(TRUNCATE)").fetchall()
    connection.close()
    return pair


def write_act(connection, act, entries):
    connection.execute("BEGIN")
    connection.execute("INSERT INTO act VALUES (?, ?, ?)", act)
    connection.executemany("INSERT INTO entry VALUES (?, ?, ?, ?, ?, ?, ?)", entries)
    added = sum(entry[6] for entry in entries)
    if act[1] == 1:
        connection.execute("INSERT INTO account VALUES (?, 1, ?)", (act[0], added))
    else:
        connection.execute("UPDATE account SET acts = acts + 1, funds = funds + ? WHERE sub = ?", (added, act[0]))
    connection.execute("COMMIT")


def write_great(path, setting, acts):
    """A store of layout 1 with so many acts, direct debits but for a top-up of each of 64 subscribers, and its size in octets."""
    rows = Rows(setting, [], [], [])
    service = Told(False, None, (), 1001, None, "octets", Tariff(5, 1000))
    keys = [key_of((0, b"4917%08d" % number)) for number in range(64)]
    for count in range(acts):
        key, place = keys[count % 64], count // 64 + 1
        act = Act(TOPPED_UP, 1_748_736_000, 1, 10**9)
        if place > 1:
            act = Act(EVENT + 1, 1_748_736_000, session=b"gw1.example;1;1", number=place, action=0, services=(service,))
        rows.acts.append((key, place, write_record(act, 1)))
        rows.entries.append((key, place, 1, DEBIT if place > 1 else TOP_UP, None, 1001 if place > 1 else 0, -10 if place > 1 else 10**9))
    for at, key in enumerate(keys):
        count = len(range(at, acts, 64))
        rows.accounts.append((key, count, 10**9 - 10 * (count - 1)))
    write_rows(path, rows)
    return os.path.getsize(path)


def file_octets(path):
    """What a file has in it; nothing where there is none."""
    if not os.path.exists(path):
        return b""
    with open(path, "rb") as file:
        return file.read()
