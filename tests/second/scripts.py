"""Plans and scripts made from a seed. A maker asks the judge how things stand, so that amounts and moments fall beside the bounds."""

import random
import string
from datetime import datetime, timezone

from charging import MOST_FUNDS, MOST_SESSIONS
from messages import *
from plans import LAST_MOMENT, MOST_TIME
from refusals import *
from writer import Writer

BEGIN = 1_748_736_000
# The hosts of the peers by their numbers: two have one host, and one has another in large letters alone.
HOSTS = {1: "gw1.example", 2: "gw2.example", 3: "gw1.example", 2**32 - 1: "GW1.example"}
VISIBLE = [chr(octet) for octet in range(0x21, 0x7F)]
PLAIN = string.ascii_letters + string.digits + ".-"

# How often each kind of event comes, by the temper of a script.
TEMPERS = {
    "mixed": {"session": 40, "event": 20, "repeat": 10, "spoiled": 10, "noise": 4, "base": 5, "top_up": 6, "sweep": 4, "peer": 1},
    "sessions": {"session": 80, "event": 5, "repeat": 6, "top_up": 4, "sweep": 5},
    "events": {"event": 70, "session": 10, "repeat": 10, "top_up": 10},
    "faults": {"spoiled": 60, "noise": 15, "session": 8, "event": 8, "repeat": 4, "top_up": 3, "base": 2},
    "peers": {"base": 60, "peer": 15, "session": 10, "event": 5, "top_up": 2, "spoiled": 8},
    "bounds": {"top_up": 30, "event": 30, "session": 30, "repeat": 5, "sweep": 5},
    "crowd": {"session": 50, "crowd": 3, "top_up": 3, "sweep": 3, "event": 5, "repeat": 6},
}


def moment_text(moment):
    return datetime.fromtimestamp(moment, timezone.utc).strftime("%Y-%m-%dT%H:%M:%SZ")


class Maker(Writer):
    most_sessions, most_services = MOST_SESSIONS, MOST_SERVICES
    # The hosts of peers, and from when on tariffs may be and how long sessions may be held.
    hosts, turns, holds = HOSTS, [BEGIN - 3600, BEGIN, BEGIN + 60, BEGIN + 1200, LAST_MOMENT], [1, 60, 1200, 1_000_000]

    def __init__(self, seed):
        self.dice = random.Random(seed)
        self.temper = self.dice.choice(list(TEMPERS))
        super().__init__(self.make_plan())
        self.now, self.next_name, self.sent = BEGIN, 0, []
        types = [0] * 4 + [1, 2, 3, 4]
        words = ["491700000001", "491700000003", "491700000002", "!", "~" * 64, ":a:", self.text(VISIBLE, 64)]
        self.subscribers = [(self.dice.choice(types), self.dice.choice(words).encode()) for _ in range(self.dice.randint(1, 6))]
        self.names = [b"x", b"gw1.example;1;1", b"\0", b"hex: \xff", b"s" * 255]
        self.crowded = self.dice.choice(self.subscribers)

    def text(self, letters, most):
        return "".join(self.dice.choices(letters, k=self.dice.choice([1, 11, most, self.dice.randint(1, most)])))

    def make_plan(self):
        dice = self.dice
        groups = dice.sample([0, 1, 10, 20, 30, 4711, 2**32 - 1], dice.randint(1, 5))
        tables = []
        for rating_group in groups:
            unit = dice.choice(["octets", "time", "units"])
            begins = {0} if dice.random() < 0.7 else set()
            begins |= set(dice.sample(self.turns, dice.randrange(3)))
            for begin in begins or {BEGIN}:
                dear = self.temper == "bounds" and dice.random() < 0.6
                price = 1_000_000 if dear else dice.choice([0, 1, 1, 2, 5, 7, 1_000_000, dice.randint(0, 1000)])
                block = 1 if dear else dice.choice([1, 1, 60, 1000, 1024, 10**12, dice.randint(1, 10**6)])
                table = f'{{ group = {rating_group}, unit = "{unit}", from = "{moment_text(begin)}", price = {price}, block = {block} }}'
                tables.append(table)
        dice.shuffle(tables)
        keys = {
            "host": f'"{self.text(PLAIN, 255)}"',
            "realm": f'"{self.text(PLAIN, 255)}"',
            "address": '"{}"'.format(".".join(str(dice.choice([0, 1, 127, 255])) for _ in range(4))),
            "shards": dice.randint(1, 8),
            "default_group": dice.choice(groups),
            "quantum": dice.choice([1, 1000, 100_000, MOST_TIME, MOST_TIME + 1, MOST_UNITS]),
            "validity": dice.choice([1, 600, 1_000_000]),
            "hold": dice.choice(self.holds),
            "currency": dice.choice([0, 978, 999]),
            "exponent": dice.choice([-9, -2, 0, 9]),
            "tariff": "[" + ", ".join(tables) + "]",
        }
        return "".join(f"{key} = {value}\n" for key, value in keys.items()).encode()

    def make(self, count):
        """A script of about so many events, and a last look at each account."""
        self.begin()
        self.go_on(TEMPERS[self.temper], count)
        self.look_at_all()
        self.say(f"sweep {LAST_MOMENT}")
        self.look_at_all()
        return self

    def begin(self):
        self.say(f"open 1 {HOSTS[1]}")
        self.say(f"open 2 {HOSTS[2]}")
        for subscriber in self.subscribers:
            if self.dice.random() < 0.9:
                self.top_up_by(subscriber, self.dice.choice([1000, 10**5, 10**7, 10**18]))

    def go_on(self, weights, count):
        """So many events, each kind as often as its weight says."""
        for event in self.dice.choices(list(weights), weights.values(), k=count):
            getattr(self, event)()

    def look_at_all(self):
        self.say("open 1 gw1.example")
        self.look(self.now, self.judge.plan.units)

    # Peers and moments.

    def peer_number(self):
        return self.dice.choices(list(self.hosts), [3, 2, 1, 1])[0]

    def open_peer(self):
        """A peer that is open, mostly."""
        peer = self.peer_number()
        if self.judge.peers.get(peer) != "open" and self.dice.random() < 0.9:
            self.say(f"open {peer} {self.hosts[peer]}")
        return peer

    def peer(self):
        peer = self.peer_number()
        self.say(self.dice.choice([f"connect {peer}", f"connect {peer}", f"disconnect {peer}", f"open {peer} {self.text(VISIBLE, 255)}"]))

    def step(self):
        """The next moment, which may be an earlier one."""
        hold = self.judge.plan.hold
        self.now += self.dice.choice([0, 0, 0, 1, 1, 30, 60, hold - 1, hold, hold + 1, -1, -60, -hold])
        if self.dice.random() < 0.02:
            self.now = self.dice.choice([0, 1, BEGIN - 1, BEGIN, BEGIN + 59, BEGIN + 60, BEGIN + 1200, LAST_MOMENT - 1, LAST_MOMENT])
        self.now = max(0, min(LAST_MOMENT, self.now))
        return self.now

    def put(self, message, peer=None):
        """A message at the next moment, by a peer that is open mostly."""
        peer = self.open_peer() if peer is None else peer
        self.put_octets(message.octets(), peer)

    def put_octets(self, octets, peer):
        digits = octets.hex()
        if len(octets) <= 65_536:
            self.say(f"message {peer} {self.step()} {digits.upper() if self.dice.random() < 0.1 else digits}")

    # Money.

    def account(self, subscriber):
        return self.judge.accounts.get(subscriber)

    def top_up(self):
        self.top_up_by(self.dice.choice(self.subscribers), None)

    def top_up_by(self, subscriber, amount):
        account = self.account(subscriber)
        room = MOST_FUNDS - (account.funds if account else 0)
        amounts = [0, 1, 5, 1000, 10**6, room, room + 1, room - 1, 10**18, 10**18 + 1, 2**64 - 1, self.dice.randint(1, 10**9)]
        amount = self.dice.choice(amounts) if amount is None else amount
        tickets = list(account.tickets) if account else []
        fresh = self.dice.choice([len(tickets) + 1, 2**64 - 1 - len(tickets)])
        ticket = self.dice.choice(tickets) if tickets and self.dice.random() < 0.2 else fresh
        kind, data = subscriber
        self.say(f"topup {self.step()} {kind}:{data.decode()} {ticket} {max(0, min(amount, 2**64 - 1))}")

    def sweep(self):
        deadlines = [session.deadline for account in self.judge.accounts.values() for session in account.open.values()]
        if deadlines and self.dice.random() < 0.8:
            moment = self.dice.choice(deadlines) + self.dice.choice([-1, 0, 0, 1])
        else:
            moment = self.step()
        self.say(f"sweep {max(0, min(moment, LAST_MOMENT))}")

    def amount(self, rating_group, subscriber):
        """An amount that may be beside a bound of the group or of the money that is free."""
        dice = self.dice
        tariff = self.judge.plan.tariff(rating_group, self.now)
        account = self.account(subscriber)
        amounts = [0, 1, dice.randint(0, 10**4), dice.randint(0, 10**7)]
        if tariff and account:
            amounts += [tariff.block, tariff.block + 1, tariff.block - 1]
            if tariff.price:
                covered = max(account.free(), 0) // tariff.price * tariff.block
                amounts += [covered, covered + 1, covered // 2, covered - 1, covered * 2]
        if self.temper == "bounds" or dice.random() < 0.05:
            amounts += [MOST_UNITS, MOST_UNITS, MOST_UNITS - 1, MOST_UNITS // 2]
        if dice.random() < 0.01:
            return dice.choice([MOST_UNITS + 1, MOST_UNITS + 2, 2**64 - 1])
        return max(0, min(dice.choice(amounts), MOST_UNITS))

    # What requests say of services.

    def units(self, code, rating_group, subscriber):
        """A Requested- or Used-Service-Unit, mostly of the group's unit."""
        dice = self.dice
        unit = self.judge.plan.units.get(rating_group)
        amount = self.amount(rating_group, subscriber)
        if unit == "time":
            trees = [number(TIME, min(amount, MOST_TIME))]
        elif unit == "octets" and dice.random() < 0.3:
            part = dice.randint(0, amount)
            trees = [long(INPUT_OCTETS, part), long(OUTPUT_OCTETS, amount - part)][dice.randrange(2) :]
        else:
            trees = [long(TOTAL_OCTETS if unit == "octets" else SPECIFIC_UNITS, amount)]
        for other in [TIME, TOTAL_OCTETS, INPUT_OCTETS, OUTPUT_OCTETS, SPECIFIC_UNITS]:
            if dice.random() < (0.5 if self.temper == "faults" else 0.06) and all(tree.code != other for tree in trees):
                value = dice.choice([0, 1, MOST_TIME, dice.randint(0, 10**9)])
                trees.append(number(TIME, value) if other == TIME else long(other, value))
        if dice.random() < 0.1:
            trees = trees[1:]
        dice.shuffle(trees)
        return group(code, *trees)

    def service_trees(self, rating_group, subscriber, wants):
        """The units that a service asks for and reports."""
        trees = [self.units(REQUESTED, rating_group, subscriber)] if "asks" in wants else []
        count = self.dice.choice([1, 1, 1, 2, 3]) if "reports" in wants else 0
        return trees + [self.units(USED, rating_group, subscriber) for _ in range(count)]

    def multi_services(self, subscriber, live, count):
        """Services with keys of their own, mostly; those with live grants come again."""
        dice = self.dice
        plan = self.judge.plan
        keys, services = [], []
        for _ in range(count):
            fresh = dice.choice([None, *plan.units, *plan.units, 77]), tuple(dice.choices([1, 2, 3, 2**32 - 1], k=dice.randrange(2)))
            key = dice.choice(live) if live and dice.random() < 0.7 else fresh
            if key in keys and dice.random() < 0.97:
                key = key[0], (dice.randrange(2**32),)
            keys.append(key)
        for rating_group, first in keys:
            wants = dice.choice([["asks"], ["asks"], ["reports"], ["asks", "reports"], ["asks", "reports"], []])
            known = plan.default_group if rating_group is None else rating_group
            trees = self.service_trees(known, subscriber, wants) + [number(SERVICE_IDENTIFIER, it) for it in first]
            trees += [number(RATING_GROUP, rating_group)] if rating_group is not None else []
            if dice.random() < 0.3:
                dice.shuffle(trees)
            # Further identifiers stand behind the first, which the key has.
            trees += [number(SERVICE_IDENTIFIER, dice.randrange(5)) for _ in range(dice.choice([0, 0, 0, 1, 3]) if first else 0)]
            services.append(group(SERVICES, *trees))
        return services

    def single_service(self, subscriber):
        wants = self.dice.choice([["asks"], ["asks"], ["reports"], ["asks", "reports"], []])
        trees = self.service_trees(self.judge.plan.default_group, subscriber, wants)
        return trees + [number(SERVICE_IDENTIFIER, self.dice.randrange(3)) for _ in range(self.dice.randrange(2))]

    # Credit-control requests.

    def subscriptions(self, subscriber):
        """The Subscription-Id, and sometimes others that don't count."""
        others = [(self.dice.randint(1, 5), self.dice.choice([b"", b"other", b" "])) for _ in range(self.dice.choice([0, 0, 0, 0, 1, 2]))]
        chosen = [subscriber, *others]
        if subscriber[0] == 0:
            self.dice.shuffle(chosen)
        return [subscription(it) for it in chosen]

    def request(self, subscriber, name, kind, rest):
        """A request, and AVPs that don't count. One in five of an open session names nobody, and few others."""
        dice = self.dice
        message = credit_control(subscriber, name, self.request_number(), kind, *rest)
        trees = message.trees
        is_nameless = dice.random() < (0.2 if kind in (UPDATE, TERMINATION) else 0.01)
        trees[8:9] = [] if is_nameless else self.subscriptions(subscriber)
        if dice.random() < 0.2:
            trees.append(group(PROXY_INFO, Tree(280, b"proxy"), Tree(33, dice.randbytes(3))))
        if dice.random() < 0.1:
            trees.append(Tree(PROXY_INFO, dice.randbytes(5), 0))
        if dice.random() < 0.2:
            trees.append(Tree(dice.choice([873, 263, 443, 284]), dice.randbytes(6), VENDOR | MANDATORY, 10415))
        if dice.random() < 0.2:
            # These have no use in a request, and aren't looked at.
            trees.append(Tree(dice.choice([999, 55, 295, 418, 419, RATING_GROUP, 458, 455, TIME]), dice.randbytes(3), 0))
        if dice.random() < 0.2:
            dice.shuffle(trees)
        return self.identified(message)

    def identified(self, message):
        """The message under some identifiers, with flags that don't change what it asks."""
        dice = self.dice
        message.flags |= dice.choice([0, PROXIABLE]) | dice.choice([0, 0, 0x10]) | dice.choice([0] * 9 + [0x0F])
        message.hop_by_hop, message.end_to_end = dice.randrange(2**32), dice.randrange(2**32)
        return message

    def name(self, account):
        """A Session-Id: an open one mostly, where there is one."""
        if account and account.open and self.dice.random() < 0.75:
            return self.dice.choice(list(account.open))
        if self.dice.random() < 0.5:
            return self.dice.choice(self.names)
        self.next_name += 1
        return b"gw1.example;%d" % self.next_name

    def request_number(self):
        return self.dice.choice([self.dice.randrange(4), self.dice.randrange(10**6), self.dice.randrange(10**6), 2**32 - 1])

    def session_request(self):
        dice = self.dice
        subscriber = dice.choice(self.subscribers)
        account = self.account(subscriber)
        name = self.name(account)
        session = account.open.get(name) if account else None
        kind = dice.choice([UPDATE] * 8 + [TERMINATION] * 2 + [INITIAL]) if session else dice.choice([INITIAL] * 8 + [UPDATE, TERMINATION])
        live = list(session.live) if session else []
        count = dice.choice([0, 1, 1, 1, 2, 2, 3, dice.randint(4, self.most_services)] + [self.most_services + 1] * (dice.random() < 0.02))
        single = dice.random() < 0.35
        rest = self.single_service(subscriber) if single else self.multi_services(subscriber, live, count)
        if dice.random() < 0.05:
            rest += [number(REQUESTED_ACTION, dice.choice([0, 4]))]
        return self.request(subscriber, name, kind, rest)

    def event_request(self):
        dice = self.dice
        subscriber = dice.choice(self.subscribers)
        single = dice.random() < 0.5
        rest = self.single_service(subscriber) if single else self.multi_services(subscriber, [], 1)
        rest.insert(0, number(REQUESTED_ACTION, dice.choice([0, 0, 0, 1, 2, 3])))
        name = self.name(self.account(subscriber))
        return self.request(subscriber, name, EVENT, rest)

    def send_new(self, message, peer=None):
        self.sent.append(message)
        self.put(message, peer)

    def session(self):
        message = self.session_request()
        self.send_new(message, self.opener_peer(message))

    def opener_peer(self, message):
        """For a request that names nobody a peer of a host from which its session was opened, mostly; else none."""
        plain = {tree.code: tree.data for tree in message.trees if tree.vendor is None}
        peers = [peer for peer, host in self.hosts.items() if (plain[SESSION_ID], host.encode()) in self.judge.openers]
        if SUBSCRIPTION_ID in plain or not peers or self.dice.random() < 0.2:
            return None
        peer = self.dice.choice(peers)
        if (self.judge.peers.get(peer), self.judge.hosts.get(peer)) != ("open", self.hosts[peer].encode()):
            self.say(f"open {peer} {self.hosts[peer]}")
        return peer

    def event(self):
        self.send_new(self.event_request())

    def crowd(self):
        """One subscriber, of all always the same, opens as many sessions as it may, and one or two more."""
        account = self.account(self.crowded)
        for _ in range(self.most_sessions + 2 - len(account.open) if account else 0):
            self.next_name += 1
            self.send_new(credit_control(self.crowded, b"crowd %d" % self.next_name, 0, INITIAL))

    def repeat(self):
        """A request that was sent: as it was, under other identifiers, or with other AVPs under its key."""
        if not self.sent:
            return
        message = self.dice.choice(self.sent[-30:]).copy()
        if self.dice.random() < 0.7:
            self.identified(message)
        if self.dice.random() < 0.4:
            kept = (SESSION_ID, REQUEST_NUMBER, SUBSCRIPTION_ID)
            other = self.dice.choice(self.sent).copy()
            message.trees = [it for it in message.trees if it.code in kept] + [it for it in other.trees if it.code not in kept]
        if self.dice.random() < 0.2:
            message.trees.append(Tree(PROXY_INFO, self.dice.randbytes(4)))
        if self.dice.random() < 0.1:
            message.trees = [it for it in message.trees if it.code != SUBSCRIPTION_ID]
        self.put(message)

    def spoiled(self):
        """A request in which one thing or several are wrong."""
        dice = self.dice
        message = dice.choice([self.session_request, self.session_request, self.event_request, self.exchange])()
        for _ in range(dice.choice([1, 1, 1, 2, 2, 3, 5])):
            spoil(dice, message.trees)
        if dice.random() < 0.06:
            self.spoil_header(message)
        self.put(message)

    def noise(self):
        """A request in which octets are changed at random."""
        message = self.dice.choice([self.session_request, self.event_request, self.exchange])()
        octets = bytearray(message.octets())
        for _ in range(self.dice.choice([1, 1, 2, 4])):
            place = self.dice.randrange(len(octets))
            octets[place] = self.dice.choice([octets[place] ^ 1 << self.dice.randrange(8), self.dice.randrange(256), 0])
        self.put_octets(bytes(octets), self.open_peer())

    # The base protocol.

    def exchange(self):
        dice = self.dice
        command = dice.choice([CAPABILITIES, WATCHDOG, WATCHDOG, DISCONNECT])
        message = capabilities() if command == CAPABILITIES else base_request(command)
        trees = message.trees
        if command == CAPABILITIES:
            # A later exchange may give its peer another host.
            trees[0].data = dice.choice([*self.hosts.values(), self.text(VISIBLE, 255)]).encode()
            trees += [number(INBAND_SECURITY_ID, dice.randrange(2)) for _ in range(dice.choice([0, 0, 0, 1, 2]))]
            for application in dice.choices([4, 4, 4, 2**32 - 1, 3], k=dice.choice([0, 1, 1, 1, 2])):
                inside = number(AUTH_APPLICATION_ID, application)
                trees.append(dice.choice([inside, group(VENDOR_SPECIFIC_APPLICATION_ID, number(VENDOR_ID, 1), inside)]))
        if command == DISCONNECT:
            trees.append(number(DISCONNECT_CAUSE, dice.choice([0, 1, 2, 2, 3])))
        if dice.random() < 0.2:
            trees.append(Tree(dice.choice([SESSION_ID, PROXY_INFO, PROXY_INFO]), dice.randbytes(5)))
        message.flags |= dice.choice([0] * 5 + [ERROR])
        return self.identified(message)

    def base(self):
        message = self.exchange()
        if self.dice.random() < 0.3:
            spoil(self.dice, message.trees)
        if self.dice.random() < 0.2:
            self.spoil_header(message)
        self.put(message, self.peer_number())

    def spoil_header(self, message):
        dice = self.dice
        right = len(message.octets())
        change = {
            "flags": [0, 0x40, ERROR, REQUEST | ERROR, dice.randrange(256)],
            "application": [0, 1, 3, 4, 2**32 - 1],
            "command": [0, 257, 271, 272, 275, 280, 282, 999, 2**24 - 1],
            "version": [0, 2, 255],
            "tail": [b"\0", b"\0\0\0", b"\0\0\0\0"],
            "length": [0, 4, 16, 20, right - 4, right - 1, right + 1, right + 4, MOST_OCTETS, MOST_OCTETS + 4, 2**24 - 1],
        }
        field = dice.choice([*change, "flags", "application", "command"])
        setattr(message, field, dice.choice(change[field]))
