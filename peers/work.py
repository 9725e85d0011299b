"""What gateways are to ask, and what they are to be answered by the rules of charging (docs/CHARGING.md), laid out a second time: nothing here is
shared with the server.

A gateway reads lines of words, parted by single blanks, and asks each line as one Credit-Control-Request:

    LANE SUB SESSION TYPE NUMBER ACTION PROXY SERVICE..

It asks the lines of a lane in their order, each behind the answer to the one before, and all lanes at once. SUB is the E.164 number of the
subscriber, TYPE the CC-Request-Type, ACTION the Requested-Action, PROXY the Proxy-State of a Proxy-Info; a word that doesn't apply is a hyphen. A
request that names nobody has a hyphen as SUB. A service is GROUP:ASKED:USED. Without a group it stands at the message's level. An amount is o1000,
t60 or u5 (octets, seconds, units); e is a Requested-Service-Unit without one. For each answer the gateway writes

    LINE SESSION TYPE NUMBER RESULT PROXY TOLD SERVICE..

with the line's number from 0, check0 or cost4 as TOLD, and GROUP:RESULT:GRANTED:FINAL:VALIDITY of each service; f is a last grant. Its last line is

    base CER CEA DWR DWA DPR DPA took MILLISECONDS again REPEATS

which counts the requests of the base protocol that it sent and the answers to them, and how often it sent a request again for want of an answer.
"""

import random
from collections import Counter, namedtuple

HOST, REALM = "ocs.charging.example", "charging.example"
INITIAL, UPDATE, TERMINATION, EVENT = 1, 2, 3, 4
DEBIT, REFUND, CHECK, ENQUIRY = 0, 1, 2, 3
QUANTUM, VALIDITY, DEFAULT = 100_000, 600, 10

# Of each group its unit, and the price of each block of so many units.
TARIFFS = {10: ("o", 5, 1000), 20: ("t", 2, 60), 30: ("u", 0, 1)}
UNITS = {"o": "octets", "t": "time", "u": "units"}

Service = namedtuple("Service", "group asked used", defaults=(None, None))
Entry = namedtuple("Entry", "place kind group units amount name")


def plan_text(shards, host=HOST):
    """The server's plan. Sessions are held for as long as a run may take."""
    tariffs = "".join(f'\n[[tariff]]\ngroup = {group}\nunit = "{UNITS[unit]}"\nfrom = "2020-01-01T00:00:00Z"\nprice = {price}\nblock = {block}\n'
                      for group, (unit, price, block) in TARIFFS.items())
    return (f'host = "{host}"\nrealm = "{REALM}"\naddress = "127.0.0.1"\nshards = {shards}\ndefault_group = {DEFAULT}\nquantum = {QUANTUM}\n'
            f"validity = {VALIDITY}\nhold = 1000000\ncurrency = 978\nexponent = -2\n{tariffs}")


def accounts_of(count, poor):
    """Accounts of so many subscribers. One of twenty has none, and one of ten is poor if there are poor."""
    subs = [f"4917{place:08}" for place in range(count)]
    return {sub: None if place % 20 == 19 else Account(700 if poor and place % 10 == 4 else 10**12) for place, sub in enumerate(subs)}


def tariff_of(group):
    return TARIFFS.get(DEFAULT if group is None else group)


def price_of(group, units):
    _, price, block = tariff_of(group)
    return -(-units // block) * price


def shown(group, units):
    return f"{(tariff_of(group) or 'u')[0]}{units}"


def told_service(group, result, granted=None, final=False, validity=None):
    words = (group, result, granted and shown(group, granted), "f" if final else None, validity)
    return ":".join("-" if word is None else str(word) for word in words)


class Account:
    """A subscriber's account. In `open` each session has the price of each live grant, by its service's group."""

    def __init__(self, funds):
        self.funds, self.overrun, self.acts = funds, 0, 1
        self.open, self.begun, self.kept = {}, set(), {}
        self.entries = [Entry(1, "TOPUP", "-", 0, funds, "ticket 1")]

    def reserved(self):
        return sum(sum(grants.values()) for grants in self.open.values())

    def free(self):
        return self.funds - self.reserved()

    def covers(self, price):
        return price == 0 or price <= self.free()

    def entry(self, kind, group, units, amount, session):
        self.funds += amount
        self.entries.append(Entry(self.acts, kind, "-" if group is None else str(group), units, amount, session))

    def answer(self, session, kind, number, action, services):
        """Result-Code, the result beside the services, and the services: the first answer again if its key was kept."""
        if (session, number) not in self.kept:
            self.acts += 1
            ask = {INITIAL: self.initial, UPDATE: self.report, TERMINATION: self.report, EVENT: self.event}[kind]
            self.kept[session, number] = kind, ask(session, kind, action, services)
        return self.kept[session, number]

    def initial(self, session, _kind, _action, services):
        if session in self.begun:
            return "5012 -"
        if len(self.open) == 1024:
            return "5006 -"
        grants = self.open[session] = {}
        told = [self.grant(grants, service) for service in services]
        if self.single(services) and told[0][0] != 2001:
            del self.open[session]
        else:
            self.begun.add(session)
        return self.session_told(services, told)

    def report(self, session, kind, _action, services):
        """An update, or a termination."""
        if session not in self.open:
            return "5002 -"
        grants = self.open[session]
        named = [service for service in services if service.used is not None or kind == UPDATE and service.asked is not None]
        held = {service.group: grants.pop(service.group, None) for service in named}
        rated = {service.group: held.get(service.group) is not None or tariff_of(service.group) is not None for service in services}
        for service in named:
            if service.used is not None and rated[service.group]:
                charge = price_of(service.group, service.used)
                self.overrun += max(0, charge - (held[service.group] or 0))
                self.entry("CHARGE", service.group, service.used, -charge, session)
        told = []
        for service in services:
            if service.used is not None and not rated[service.group]:
                told.append((5031, None, False))
            elif kind == UPDATE:
                told.append(self.grant(grants, service))
            else:
                told.append((2001, None, False))
        if kind == TERMINATION or self.single(services) and told[0][0] != 2001:
            del self.open[session]
        return self.session_told(services, told)

    def grant(self, grants, service):
        """The greatest grant up to what is asked whose price is covered: result, units, and whether it is the last."""
        if service.asked is None:
            return 2001, None, False
        if tariff_of(service.group) is None:
            return 5031, None, False
        _, price, block = tariff_of(service.group)
        asked = service.asked or QUANTUM
        granted = asked if price == 0 else min(asked, max(self.free(), 0) // price * block)
        if granted == 0:
            return 4012, None, False
        grants[service.group] = price_of(service.group, granted)
        return 2001, granted, granted < asked

    @staticmethod
    def single(services):
        return len(services) == 1 and services[0].group is None

    def session_told(self, services, told):
        if self.single(services):
            result, granted, final = told[0]
            return f"{result} -" + (f" {told_service(None, None, granted, final, VALIDITY)}" if granted else "")
        return " ".join(["2001 -"] + [told_service(service.group, result, granted, final, VALIDITY if granted else None)
                                      for service, (result, granted, final) in zip(services, told)])

    def event(self, session, _kind, action, services):
        service = services[0]
        if tariff_of(service.group) is None:
            return self.event_told(service, 5031)
        units = service.asked or 1
        price = price_of(service.group, units)
        if action == CHECK:
            return self.event_told(service, 2001, extra=f"check{int(not self.covers(price))}")
        if action == ENQUIRY:
            return self.event_told(service, 2001, extra=f"cost{price}")
        if action == REFUND:
            self.entry("REFUND", service.group, units, price, session)
            return self.event_told(service, 2001)
        if not self.covers(price):
            return self.event_told(service, 4012)
        self.entry("DEBIT", service.group, units, -price, session)
        return self.event_told(service, 2001, units)

    @staticmethod
    def event_told(service, result, granted=None, extra="-"):
        if service.group is not None:
            return f"{result} {extra} {told_service(service.group, result, granted)}"
        return f"{result} {extra}" + (f" {told_service(None, None, granted)}" if granted else "")

    def page(self):
        """The lines of its ledger without their moments, and its last line."""
        funds, lines = 0, []
        for entry in self.entries:
            funds += entry.amount
            lines.append(f"{entry.place} {entry.kind} {entry.group} {entry.units} {entry.amount:+} {funds} {entry.name}")
        return lines + [f"funds {self.funds} reserved {self.reserved()} overrun {self.overrun}"]


class Work:
    """The requests of one gateway: lines, what each of them is to be answered, and the accounts behind all of them.

    Two gateways that ask for the same subscribers at once share their accounts. What one of them is answered doesn't depend on what the other
    has asked before, since no subscriber whom both ask for is ever short.

    If some are to name nobody, the updates and the termination of one session of four have no Subscription-Id. Their subscriber has an account, and
    is never short, so that the session was opened."""

    def __init__(self, host, requests, lanes, accounts, some_nameless=False):
        self.host, self.lanes, self.accounts, self.some_nameless = host, lanes, accounts, some_nameless
        self.subscribers = list(accounts)
        self.lane_of = {sub: place % lanes for place, sub in enumerate(self.subscribers)}
        self.choose = random.Random(f"{host} {requests}")
        self.lines, self.wanted, self.sessions = [], [], 0
        visits = [self.session, self.session, self.single_session, self.events, self.events, self.refusals]
        while len(self.lines) < requests:
            self.choose.choice(visits)(self.choose.choice(self.subscribers))

    def name(self):
        self.sessions += 1
        return f"{self.host};{self.sessions};1"

    def ask(self, sub, session, kind, number, services=(), action=None, is_named=True):
        """Adds a line and its answer, and gives the units that each group is granted by it."""
        proxy = f"hop{len(self.lines)}" if len(self.lines) % 8 == 3 else "-"
        words = [self.lane_of[sub], sub if is_named else "-", session, kind, number, "-" if action is None else action, proxy]
        self.lines.append(" ".join(map(str, words + [self.service_word(service) for service in services])))
        account = self.accounts[sub]
        first, told = account.answer(session, kind, number, action, services) if account else (kind, "5030 -")
        result, told = told.split(" ", 1)
        self.wanted.append(f"{session} {first} {number} {result} {proxy} {told}")
        granted = [word.split(":") for word in told.split(" ")[1:]]
        return {word[0]: int(word[2][1:]) for word in granted if word[2] != "-"}

    @staticmethod
    def service_word(service):
        """What is asked as 0 is asked without an amount."""
        asked = "-" if service.asked is None else shown(service.group, service.asked) if service.asked else "e"
        used = "-" if service.used is None else shown(service.group, service.used)
        return f"{'-' if service.group is None else service.group}:{asked}:{used}"

    def used(self, granted, group):
        """A report: mostly less than what was granted, and now and then more."""
        units = granted.get("-" if group is None else str(group), 0)
        return self.choose.randint(0, units + units // 10)

    def asked(self):
        return self.choose.choice([0, self.choose.randint(1, 500), self.choose.randint(1, 200_000)])

    def session(self, sub):
        """A session of one to three services, with updates and a termination."""
        self.visit(sub, self.choose.sample(sorted(TARIFFS), self.choose.randint(1, 3)))

    def single_session(self, sub):
        """A session with one service at the message's level."""
        self.visit(sub, [None])

    def visit(self, sub, groups):
        session, updates = self.name(), self.choose.randint(1, 4)
        is_named = not (self.some_nameless and self.accounts[sub] and self.choose.randrange(4) == 0)
        granted = self.ask(sub, session, INITIAL, 0, [Service(group, self.asked()) for group in groups])
        for number in range(1, updates + 1):
            services = [Service(group, self.asked(), self.used(granted, group)) for group in groups]
            granted = self.ask(sub, session, UPDATE, number, services, is_named=is_named)
            if number % 3 == 0:
                self.ask(sub, session, UPDATE, number, services, is_named=is_named)
        last = [Service(group, None, self.used(granted, group)) for group in groups]
        self.ask(sub, session, TERMINATION, updates + 1, last, is_named=is_named)

    def events(self, sub):
        """The four one-time events, of which a debit comes twice under one number."""
        session = self.name()
        for number, action in enumerate((ENQUIRY, CHECK, DEBIT, REFUND)):
            services = [Service(self.choose.choice([None, *TARIFFS]), self.choose.randint(1, 5_000))]
            for _ in range(2 if action == DEBIT else 1):
                self.ask(sub, session, EVENT, number, services, action)

    def refusals(self, sub):
        """An update of no session, a session opened twice, and a group without a tariff."""
        session = self.name()
        self.ask(sub, session, UPDATE, 0, [Service(10, 1_000, 1_000)])
        self.ask(sub, session, INITIAL, 1, [Service(10, 1_000)])
        self.ask(sub, session, INITIAL, 2, [Service(10, 1_000)])
        self.ask(sub, session, TERMINATION, 3)
        self.ask(sub, self.name(), EVENT, 0, [Service(99, 5)], DEBIT)

    def results(self):
        return Counter(wanted.split(" ")[3] for wanted in self.wanted)
