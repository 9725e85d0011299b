"""Scripts of hostile input: messages cut and falsified at each place, messages as great as they may be, groups in groups, requests that name
nobody, and money at its bounds.
"""

from functools import partial
from itertools import combinations, permutations

from charging import *
from messages import *
from plans import MOST_TIME
from refusals import *
from writer import Writer

PLAN = b"""
host = "ocs.example"
realm = "example"
address = "127.0.0.1"
shards = 2
default_group = 10
quantum = 100000
validity = 600
hold = 1200
currency = 978
exponent = -2
tariff = [
  { group = 10, unit = "octets", from = "2020-01-01T00:00:00Z", price = 5, block = 1000 },
  { group = 20, unit = "time", from = "2020-01-01T00:00:00Z", price = 2, block = 60 },
  { group = 30, unit = "units", from = "2020-01-01T00:00:00Z", price = 0, block = 1 },
  { group = 40, unit = "octets", from = "2020-01-01T00:00:00Z", price = 1000000, block = 1 },
  { group = 50, unit = "time", from = "2020-01-01T00:00:00Z", price = 1000000, block = 1 },
  { group = 60, unit = "units", from = "2020-01-01T00:00:00Z", price = 1, block = 1 },
]
"""
UNIT_OF = {10: "octets", 20: "time", 30: "units", 40: "octets", 50: "time", 60: "units"}
NOW = 1_748_736_000
SUBSCRIBER = 0, b"491700000001"
MOST_BODY = MOST_OCTETS - HEADER_OCTETS


class Hostile(Writer):
    """A script under the one plan, of one subscriber, over peers 1 and 2, which are open."""

    def __init__(self, amount=1_000_000):
        super().__init__(PLAN)
        self.numbers = 1
        self.say("open 1 gw1.example")
        self.say("open 2 gw2.example")
        self.say(f"topup {NOW} 0:491700000001 1 {amount}")

    def fresh(self):
        """A number that no request or top-up has yet."""
        self.numbers += 1
        return self.numbers

    def top_up(self, amount):
        """A top-up, twice."""
        ticket = self.fresh()
        for _ in range(2):
            self.say(f"topup {NOW} 0:491700000001 {ticket} {amount}")

    def put(self, message, peer=1):
        self.send(message, peer, NOW)

    def put_first(self, message):
        """A first message of a peer, and a watchdog that tells whether it is open behind it."""
        self.say("connect 3")
        self.put(message, 3)
        self.put(base_request(WATCHDOG), 3)

    def event(self, action, *rest):
        self.put(event(SUBSCRIBER, b"event", self.fresh(), action, *rest))

    def session(self, name, kind, *rest, subscriber=SUBSCRIBER, peer=1):
        self.put(credit_control(subscriber, name, self.fresh(), kind, *rest), peer)

    def look_at_free(self):
        """What is free, by peer 1, which a message may have closed."""
        self.say("open 1 gw1.example")
        self.look(NOW, [60])


def service(rating_group, *rest):
    return group(SERVICES, number(RATING_GROUP, rating_group), *rest)


def asks(rating_group, amount):
    return service(rating_group, units_of(REQUESTED, UNIT_OF[rating_group], amount))


def reports(rating_group, *amounts):
    return service(rating_group, *(units_of(USED, UNIT_OF[rating_group], amount) for amount in amounts))


# Messages cut and falsified.


def debit(writer):
    return event(SUBSCRIBER, b"gw1.example;1;1", writer.fresh(), DIRECT_DEBITING, units_of(REQUESTED, "octets", 1001))


def refund(writer):
    return event(SUBSCRIBER, b"gw1.example;1;1", writer.fresh(), REFUND, asks(10, 1001))


def update(writer):
    services = [
        service(10, number(SERVICE_IDENTIFIER, 1), units_of(REQUESTED, "octets", 1000), units_of(USED, "octets", 999)),
        service(20, units_of(USED, "time", 30), units_of(USED, "time", 31)),
    ]
    return credit_control(SUBSCRIBER, b"s", writer.fresh(), UPDATE, *services)


def nameless(writer):
    message = update(writer)
    message.trees = [tree for tree in message.trees if tree.code != SUBSCRIPTION_ID]
    return message


def exchange(_writer):
    vendors = group(VENDOR_SPECIFIC_APPLICATION_ID, number(VENDOR_ID, 10415), number(AUTH_APPLICATION_ID, 4))
    return capabilities(vendors, number(INBAND_SECURITY_ID, 0))


# Octets that other programs may be tried by: a direct debit of 1,001 octets, a service with a final grant, and an exchange of capabilities.
PLAIN_DEBIT = """010000e4 c0000110 00000004 00000011 00000021 00000107 40000017 6777312e6578616d706c653b313b3100 00000108 40000013
    6777312e6578616d706c6500 00000128 4000000f 6578616d706c6500 0000011b 4000000f 6578616d706c6500 00000102 4000000c 00000004 000001cd 40000014
    64617461406578616d706c65 000001a0 4000000c 00000004 0000019f 4000000c 00000000 000001b4 4000000c 00000000 000001bb 40000028 000001c2 4000000c
    00000000 000001bc 40000014 343931373030303030303031 000001b5 40000018 000001a5 40000010 00000000000003e9"""
FINAL_GRANT = """000001c8 40000058 000001af 40000018 000001a5 40000010 00000000000186a0 000001b0 4000000c 0000000a 000001c0 4000000c 00000258 0000010c
    4000000c 000007d1 000001ae 40000014 000001c1 4000000c 00000000"""
PLAIN_EXCHANGE = """0100006c 80000101 00000000 00000003 00000004 00000108 40000013 6777312e6578616d706c6500 00000128 4000000f 6578616d706c6500 00000101
    4000000e 00017f0000010000 0000010a 4000000c 00000000 0000010d 0000000a 67770000 00000102 4000000c 00000004"""


def plain_debit(_writer):
    return message_of(PLAIN_DEBIT)


def final_grant(writer):
    return credit_control(SUBSCRIBER, b"s", writer.fresh(), UPDATE, *trees_of(bytes.fromhex(FINAL_GRANT)))


def plain_exchange(_writer):
    return message_of(PLAIN_EXCHANGE)


EXCHANGES = exchange, plain_exchange
WHOLE = {"debit": debit, "refund": refund, "update": update, "nameless": nameless, "exchange": exchange}
WHOLE |= {"plain debit": plain_debit, "final grant": final_grant, "plain exchange": plain_exchange}


def cut(make):
    """Each beginning of a message whose length is made to fit."""
    writer = prepared()
    for end in range(HEADER_OCTETS, len(make(Hostile()).octets()), 4):
        message = make(writer).octets()[:end]
        put_looked_at(writer, make, message[:1] + end.to_bytes(3, "big") + message[4:])
    return writer


def short(make):
    """Each beginning of a message as it is, whose length isn't its own."""
    writer = prepared()
    for end in range(1, len(make(Hostile()).octets())):
        put_looked_at(writer, make, make(writer).octets()[:end])
    return writer


def falsified(make):
    """A message with each length of an AVP in turn replaced."""
    writer = prepared()
    for place in range(len(list(every(make(Hostile()).trees)))):
        for way in ["0", "7", "one less", "one more", "four more", "most"]:
            message = make(writer)
            _, tree = list(every(message.trees))[place]
            right = 8 + len(spelled(tree.data))
            tree.length = {"0": 0, "7": 7, "one less": right - 1, "one more": right + 1, "four more": right + 4, "most": 0xFFFFFF}[way]
            put_looked_at(writer, make, message)
    return writer


def prepared():
    writer = Hostile()
    writer.session(b"s", INITIAL, asks(10, 1000), asks(20, 60))
    return writer


def put_looked_at(writer, make, message):
    if make in EXCHANGES:
        writer.put_first(message)
    else:
        writer.put(message)
        writer.look_at_free()


def dictionary():
    """Each AVP of the profile, and some that aren't in it, with a wrong length, alone, and with V set."""
    writer = Hostile()
    for code in [*LEAST_OCTETS, 0, 413, 999, 2**32 - 1]:
        for flags in [0, MANDATORY, 0xFF]:
            for length in [0, 7, 8, 11, 12, 13]:
                for where in [WATCHDOG, CREDIT_CONTROL]:
                    message = base_request(WATCHDOG) if where == WATCHDOG else event(SUBSCRIBER, b"d", writer.fresh(), CHECK_BALANCE, group(SERVICES))
                    (message.trees if where == WATCHDOG else message.trees[-1].data).append(Tree(code, b"", flags, length=length))
                    writer.put(message)
    for make in WHOLE.values():
        for place in range(len(make(writer).trees)):
            message = make(writer)
            del message.trees[place]
            writer.put_first(message) if make in EXCHANGES else writer.put(message)
    writer.look_at_free()
    return writer


def places():
    """Several faults of one kind in a message: the first that is looked for is told."""
    writer = Hostile()
    once = [number(SERVICE_IDENTIFIER, 1), number(REQUESTED_ACTION, 0), units_of(REQUESTED, "units", 1)]
    once += [Tree(SESSION_ID, b"x"), number(REQUEST_TYPE, 4)]
    amounts = [number(TIME, 1), long(TOTAL_OCTETS, 1), long(INPUT_OCTETS, 1), long(OUTPUT_OCTETS, 1), long(SPECIFIC_UNITS, 1)]
    sized = [Tree(it.code, it.data[1:]) for it in amounts]
    inner = [number(RATING_GROUP, 10), units_of(REQUESTED, "units", 1), number(SERVICE_IDENTIFIER, 1)]
    names = [number(SUBSCRIPTION_TYPE, 0), Tree(SUBSCRIPTION_DATA, b"1")]
    for one, other in permutations(range(5), 2):
        for kind in [INITIAL, EVENT]:
            writer.session(b"p", kind, *(once[it] for it in [one, one, other, other]))
            for code in [REQUESTED, USED]:
                for faulty in [[amounts[it] for it in [one, one, other, other]], [sized[one], sized[other]]]:
                    writer.session(b"p", kind, group(code, *faulty), number(REQUESTED_ACTION, 0))
                    writer.session(b"p", kind, service(10, group(code, *faulty)), number(REQUESTED_ACTION, 0))
    for order in permutations(inner):
        writer.event(CHECK_BALANCE, group(SERVICES, *order, *order))
        writer.event(CHECK_BALANCE, group(SERVICES, *(Tree(it.code, b"\0") for it in order)))
    for order in permutations(names * 2):
        writer.event(CHECK_BALANCE, group(SUBSCRIPTION_ID, *order))
    for order in permutations([units_of(REQUESTED, "units", 1), units_of(USED, "units", 1), service(10), service(20)]):
        writer.event(CHECK_BALANCE, *order)
        writer.session(b"p", UPDATE, *order)
    applications = [number(AUTH_APPLICATION_ID, 4), number(AUTH_APPLICATION_ID, 3), Tree(AUTH_APPLICATION_ID, b"\0")]
    for order in permutations(applications):
        writer.put_first(capabilities(group(VENDOR_SPECIFIC_APPLICATION_ID, *order)))
        writer.put_first(capabilities(*(group(VENDOR_SPECIFIC_APPLICATION_ID, it) for it in order[:2])))
        writer.put_first(capabilities(*order[:2]))
    for missing in combinations(range(10), 2):
        message = event(SUBSCRIBER, b"p", writer.fresh(), CHECK_BALANCE)
        message.trees = [tree for place, tree in enumerate(message.trees) if place not in missing]
        writer.put(message)
    writer.look_at_free()
    return writer


def values():
    """Two wrong values in a message, in either order: the first that is looked at is told."""
    writer = Hostile()
    much = long(TOTAL_OCTETS, MOST_UNITS + 1)
    wrong = [
        Tree(SESSION_ID, b""),
        Tree(AUTH_APPLICATION_ID, b"\0\0\4"),
        number(AUTH_APPLICATION_ID, 3),
        number(REQUEST_TYPE, 5),
        Tree(REQUEST_TYPE, b"\0\0\0\4\0"),
        Tree(REQUEST_NUMBER, b"\1"),
        number(REQUESTED_ACTION, 4),
        Tree(REQUESTED_ACTION, b""),
        subscription((5, b"1")),
        subscription((0, b" ")),
        group(SUBSCRIPTION_ID, Tree(SUBSCRIPTION_TYPE, b"\1"), Tree(SUBSCRIPTION_DATA, b"1")),
        Tree(SERVICE_IDENTIFIER, b"\1"),
        group(REQUESTED, much),
        group(REQUESTED, Tree(TIME, b"\0"), much),
        group(USED, much),
        group(SERVICES, Tree(RATING_GROUP, b"\1"), Tree(SERVICE_IDENTIFIER, b"\1")),
        group(SERVICES, group(USED, much), group(REQUESTED, much)),
        group(SERVICES, group(USED, much), Tree(SERVICE_IDENTIFIER, b"\1")),
    ]
    for pair in permutations(wrong, 2):
        message = event(SUBSCRIBER, b"v", writer.fresh(), CHECK_BALANCE)
        codes = [tree.code for tree in pair]
        message.trees = [tree for tree in message.trees if tree.code not in codes] + list(pair)
        writer.put(message)
    writer.look_at_free()
    return writer


# Messages as great as they may be.


def fit(message, where, code, flags):
    """The message with so many one-octet AVPs at one place that it is as long as it may be."""
    each = len(Tree(code, b"\0", flags).octets())
    room = MOST_OCTETS - len(message.octets())
    # What is left over is in the first one.
    sizes = [1 + room % each] + [1] * (room // each - 1)
    where += [Tree(code, bytes(size), flags) for size in sizes]
    return message


def great():
    """One-octet AVPs, known and unknown, in the message's list and in groups, up to the greatest length."""
    writer = Hostile()
    for code, flags in [(999, 0), (999, MANDATORY), (1, 0), (PROXY_INFO, 0), (SESSION_ID, 0), (SUBSCRIPTION_ID, 0), (USED, 0), (873, VENDOR)]:
        message = event(SUBSCRIBER, b"filled", writer.fresh(), CHECK_BALANCE)
        writer.put(fit(message, message.trees, code, flags))
    for outside in [SERVICES, REQUESTED, USED, PROXY_INFO, SUBSCRIPTION_ID, 458]:
        for code, flags in [(999, 0), (999, MANDATORY), (SERVICE_IDENTIFIER, MANDATORY), (REQUESTED, 0), (SUBSCRIPTION_TYPE, 0)]:
            message = event(SUBSCRIBER, b"great", writer.fresh(), CHECK_BALANCE, group(outside))
            writer.put(fit(message, message.trees[-1].data, code, flags))
    for length in [MOST_OCTETS - 4, MOST_OCTETS, MOST_OCTETS + 4]:
        message = base_request(WATCHDOG)
        message.trees.append(Tree(1, bytes(length - len(message.octets()) - 8)))
        writer.put(message)
        writer.say("open 1 gw1.example")
    for flags in [0, MANDATORY]:
        message = debit(writer)
        message.trees.insert(0, Tree(999, bytes(MOST_OCTETS - len(message.octets()) - 8), flags))
        writer.put(message)
    writer.look_at_free()
    return writer


def many_identifiers():
    """As many Service-Identifiers as fit, of one service and of thirty-two."""
    writer = Hostile()
    for kind, count in [(EVENT, 1), (INITIAL, 1), (INITIAL, 32), (INITIAL, 33)]:
        action = [number(REQUESTED_ACTION, PRICE_ENQUIRY)] if kind == EVENT else []
        groups = [group(SERVICES, number(SERVICE_IDENTIFIER, it), units_of(REQUESTED, "octets", 1)) for it in range(count)]
        message = credit_control(SUBSCRIBER, b"s%d" % writer.fresh(), 1, kind, *action, *groups)
        for it in groups:
            room = MOST_OCTETS - len(message.octets()) if it is groups[-1] else MOST_BODY // count
            it.data += [number(SERVICE_IDENTIFIER, identifier) for identifier in range(room // 12)]
        writer.put(message)
        message.flags |= 0x10
        writer.put(message)
    writer.look_at_free()
    return writer


def nested(code, depth, inner=b""):
    """Groups of one code, each in another."""
    for _ in range(depth - 1):
        inner = Tree(code, inner).octets()
    return Tree(code, inner)


def deep():
    """Groups in groups: those that are looked into end at the second level."""
    writer = Hostile()
    for code in [PROXY_INFO, SERVICES, REQUESTED, USED, SUBSCRIPTION_ID, 458, FAILED_AVP]:
        for depth in [1, 2, 3, 17, 1000, 8000]:
            for inner in [b"", b"\0\0\0", spell(999, b"", MANDATORY)]:
                writer.put(event(SUBSCRIBER, b"deep", writer.fresh(), CHECK_BALANCE, nested(code, depth, inner)))
    for depth in [1, 2, 3, 8000]:
        writer.put_first(capabilities(nested(VENDOR_SPECIFIC_APPLICATION_ID, depth, number(AUTH_APPLICATION_ID, 4).octets())))
    writer.look_at_free()
    return writer


def many_services():
    """Up to thirty-three services, and many more, with keys of their own or not, and beside units of the message's level."""
    writer = Hostile()
    for count in [16, 17, 31, 32, 33, 34, 100]:
        keys = [service(10, number(SERVICE_IDENTIFIER, it), units_of(REQUESTED, "octets", 1)) for it in range(count)]
        alike = [service(10, number(SERVICE_IDENTIFIER, it % 15), units_of(REQUESTED, "octets", 1)) for it in range(count)]
        for services in [keys, alike]:
            for kind in [INITIAL, UPDATE, TERMINATION]:
                writer.session(b"s%d" % count, kind, *services)
            writer.event(DIRECT_DEBITING, *services)
            writer.session(b"t", INITIAL, *services, units_of(USED, "octets", 1))
    for pair in [(None, None), (10, None), (None, 1), (10, 1)]:
        for other in [(None, None), (10, None), (None, 1), (10, 1), (10, 2)]:
            writer.session(b"p%d" % writer.fresh(), INITIAL, *(of_key(*key) for key in [pair, other]))
    writer.look_at_free()
    return writer


def of_key(rating_group, identifier):
    trees = [number(RATING_GROUP, rating_group)] if rating_group else []
    return group(SERVICES, *trees, *([number(SERVICE_IDENTIFIER, identifier)] if identifier else []))


# Requests that name nobody.


OTHER = 4, b"other"


def seek(writer, name, peers=(1, 2, 3)):
    """Requests of a session that name nobody, of each type, by each of these peers."""
    for kind in [UPDATE, INITIAL, EVENT, TERMINATION, UPDATE]:
        for peer in peers:
            writer.session(name, kind, *([number(REQUESTED_ACTION, CHECK_BALANCE)] if kind == EVENT else []), subscriber=None, peer=peer)


def openers():
    """Sessions that nobody opened, or one, or several, from one host or from two, in each way in which a session may be opened or not."""
    writer = Hostile()
    writer.say(f"topup {NOW} 4:other 1 10")
    writer.say("open 3 gw1.example")
    # By whom, and by which peer, a session is to be opened.
    opened = {
        b"none": [],
        b"one": [(SUBSCRIBER, 1)],
        b"both": [(SUBSCRIBER, 1), (OTHER, 1)],
        b"apart": [(SUBSCRIBER, 1), (OTHER, 2)],
        b"beside": [(SUBSCRIBER, 1), (OTHER, 3)],
        b"twice": [(SUBSCRIBER, 1), (SUBSCRIBER, 2)],
        b"unknown": [((0, b"nobody"), 1)],
    }
    for name, pairs in opened.items():
        for subscriber, peer in pairs:
            writer.session(name, INITIAL, asks(60, 1), subscriber=subscriber, peer=peer)
        seek(writer, name)
    # What opens no session: a service in single form that is refused, a request that is refused for its content, an event, an update.
    wanted = {
        b"dear": (INITIAL, [units_of(REQUESTED, "octets", 10**6)]),
        b"wrong": (INITIAL, [units_of(REQUESTED, "octets", MOST_UNITS + 1)]),
        b"event": (EVENT, [number(REQUESTED_ACTION, DIRECT_DEBITING)]),
        b"later": (UPDATE, []),
    }
    for name, (kind, rest) in wanted.items():
        writer.session(name, kind, *rest, subscriber=OTHER)
        seek(writer, name)
        # From another host it is then opened, by one of the two or by both.
        for subscriber in [OTHER, SUBSCRIBER]:
            writer.session(name, INITIAL, subscriber=subscriber, peer=2)
            seek(writer, name)
    # A repeat of what opened a session opens nothing, from wherever it comes, and a session that was swept is found.
    for peer in [1, 2, 3]:
        writer.put(credit_control(SUBSCRIBER, b"again", 1, INITIAL, asks(60, 1)), peer)
        writer.put(credit_control(None, b"again", 1, UPDATE), peer)
    writer.say(f"sweep {NOW + 1200}")
    seek(writer, b"again")
    writer.look_at_free()
    return writer


def repeats():
    """A request that names nobody and one of its key that names its subscriber are repeats of one another."""
    writer = Hostile()
    writer.session(b"s", INITIAL, asks(60, 10))
    for kind in [UPDATE, TERMINATION]:
        for named in [None, SUBSCRIBER]:
            key = writer.fresh()
            for subscriber in [named, SUBSCRIBER, None, OTHER]:
                for peer in [1, 2]:
                    writer.put(credit_control(subscriber, b"s", key, kind, service(60, units_of(USED, "units", 3))), peer)
            writer.look_at_free()
    return writer


def hosts():
    """Hosts and sessions that are alike, and peers whose host becomes another."""
    writer = Hostile()
    names = ["a", "ab", "A", "a\0", "a.", "b", "\x7f", "\xff", "a" * 254, "a" * 255]
    sessions = [b"c", b"bc", b"C", b"c\0", b"\0c", b"c" * 254, b"c" * 255]
    for it, name in enumerate(names):
        subscriber = 3, b"%d" % it
        writer.say(f"topup {NOW} 3:{it} 1 100")
        writer.say(f"open {it + 10} {name}")
        # Each opens another of the sessions, and the next one.
        for session in [sessions[it % len(sessions)], sessions[(it + 1) % len(sessions)]]:
            writer.session(session, INITIAL, asks(60, 1), subscriber=subscriber, peer=it + 10)
    for it in range(len(names)):
        for session in sessions:
            writer.session(session, UPDATE, subscriber=None, peer=it + 10)
    writer.session(b"s", INITIAL, subscriber=SUBSCRIBER)
    # Exchanges that are accepted give peer 3 another host, those that are refused close it, and so does a disconnection.
    for host in [b"gw2.example", b"gw1.example", b"GW1.example", b"gw1.example\0", b"gw1.example", b"", b"gw1.example", b"g" * 256, b"gw1.example"]:
        for application in [4, 3, 4]:
            if writer.judge.peers.get(3) != "open":
                writer.say("connect 3")
            message = capabilities(number(AUTH_APPLICATION_ID, application))
            message.trees[0].data = host
            writer.put(message, 3)
            writer.session(b"s", UPDATE, subscriber=None, peer=3)
    for way in ["disconnect 3", "connect 3", "open 3 gw2.example", "open 3 gw1.example"]:
        writer.say(way)
        writer.session(b"s", UPDATE, subscriber=None, peer=3)
    writer.put(base_request(DISCONNECT, number(DISCONNECT_CAUSE, 0)), 3)
    writer.session(b"s", UPDATE, subscriber=None, peer=3)
    # The Origin-Host of a request, or of a watchdog, is not that of its peer.
    for peer in [1, 2]:
        for host in [b"gw1.example", b"gw2.example"]:
            for message in [base_request(WATCHDOG), credit_control(None, b"s", writer.fresh(), UPDATE)]:
                next(tree for tree in message.trees if tree.code == ORIGIN_HOST).data = host
                writer.put(message, peer)
    return writer


def nobody():
    """Requests that name nobody and have another fault, whose session was opened by one subscriber, by two, or by none."""
    writer = Hostile()
    writer.say(f"topup {NOW} 4:other 1 10")
    for name, subscribers in [(b"one", [SUBSCRIBER]), (b"two", [SUBSCRIBER, OTHER])]:
        for subscriber in subscribers:
            writer.session(name, INITIAL, asks(60, 1), subscriber=subscriber)
    for name in [b"none", b"one", b"two"]:
        for kind in [UPDATE, TERMINATION]:
            for fault in FAULTS:
                message = credit_control(None, name, writer.fresh(), kind)
                message.trees = [tree for tree in message.trees if tree.code != fault.code] + [fault.copy(), Tree(PROXY_INFO, b"p")]
                writer.put(message)
                # A second fault of the one kind, in front.
                message.trees.insert(0, fault.copy())
                writer.put(message)
    writer.look_at_free()
    return writer


FAULTS = [
    *(Tree(SUBSCRIPTION_ID, b"", flags) for flags in [0, MANDATORY, 0xFF]),
    Tree(SUBSCRIPTION_ID, number(SUBSCRIPTION_TYPE, 0).octets(), VENDOR, 10415),
    group(SUBSCRIPTION_ID, Tree(SUBSCRIPTION_DATA, b"other")),
    group(SUBSCRIPTION_ID, number(SUBSCRIPTION_TYPE, 4)),
    group(SUBSCRIPTION_ID, number(SUBSCRIPTION_TYPE, 5), Tree(SUBSCRIPTION_DATA, b"other")),
    group(SUBSCRIPTION_ID, number(SUBSCRIPTION_TYPE, 4), Tree(SUBSCRIPTION_DATA, b"")),
    Tree(SUBSCRIPTION_DATA, b"other"),
    Tree(999, b"", MANDATORY),
    Tree(SESSION_ID, b""),
    Tree(SESSION_ID, b"x" * 256),
    number(AUTH_APPLICATION_ID, 3),
    *(number(REQUEST_TYPE, kind) for kind in [0, INITIAL, UPDATE, TERMINATION, EVENT, 5, 2**32 - 1]),
    *(Tree(REQUEST_TYPE, data) for data in [b"", b"\2", b"\0\0\0", b"\0\0\0\2\0"]),
    Tree(REQUEST_NUMBER, b"\1"),
    number(REQUESTED_ACTION, 9),
    Tree(SERVICE_IDENTIFIER, b"\1"),
    group(REQUESTED, long(TOTAL_OCTETS, MOST_UNITS + 1)),
    group(USED, Tree(TIME, b"")),
    group(SERVICES, Tree(RATING_GROUP, b"")),
    group(SERVICES),
    Tree(SERVICES, b"\0"),
    Tree(SERVICE_CONTEXT_ID, b"", length=7),
]


# Amounts and money at their bounds.


def amounts():
    """Amounts at the greatest one, in each unit, and in sums of parts and of reports."""
    writer = Hostile(10**18)
    bound = MOST_UNITS
    bounds = [bound - 1, bound, bound + 1, 2**63, 2**64 - 1]
    halves = [long(INPUT_OCTETS, bound // 2), long(OUTPUT_OCTETS, bound // 2)]
    for code in [REQUESTED, USED]:
        for parts in [
            *([long(TOTAL_OCTETS, amount)] for amount in bounds),
            *([long(INPUT_OCTETS, amount)] for amount in bounds),
            *([long(SPECIFIC_UNITS, amount)] for amount in bounds),
            halves,
            [long(INPUT_OCTETS, bound // 2 + 1), halves[1]],
            [long(INPUT_OCTETS, 2**64 - 1), long(OUTPUT_OCTETS, 2**64 - 1)],
            [long(INPUT_OCTETS, 2**64 - 1), long(OUTPUT_OCTETS, 1)],
            [long(INPUT_OCTETS, 2**64 - 1), long(TOTAL_OCTETS, 1)],
            [number(TIME, MOST_TIME)],
        ]:
            writer.event(PRICE_ENQUIRY, group(code, *parts))
            for rating_group in UNIT_OF:
                writer.event(CHECK_BALANCE, service(rating_group, group(code, *parts)))
                writer.event(PRICE_ENQUIRY, service(rating_group, group(code, *parts)))
    writer.session(b"s", INITIAL)
    for rating_group in [10, 20, 30]:
        for sums in [[bound, 0], [bound, 1], [bound - 1, 1, 0], [bound // 2] * 3, [1, 2**64 - 1], [2**64 - 1] * 2]:
            writer.session(b"s", UPDATE, service(rating_group, *(group(USED, long(TOTAL_OCTETS, it)) for it in sums)))
            writer.session(b"s", UPDATE, service(rating_group, *(group(USED, long(SPECIFIC_UNITS, it)) for it in sums)))
            writer.session(b"s", UPDATE, *(group(USED, long(OUTPUT_OCTETS, it)) for it in sums))
        for count in [232, 233, 234]:
            writer.session(b"s", UPDATE, service(rating_group, *(group(USED, number(TIME, MOST_TIME)) for _ in range(count))))
    # Parts of an amount in different reports, and different units that are each within the bound.
    writer.session(b"s", UPDATE, service(10, *(group(USED, long(it, bound // 2)) for it in [TOTAL_OCTETS, INPUT_OCTETS])))
    writer.session(b"s", UPDATE, service(10, *(group(USED, long(it, bound)) for it in [TOTAL_OCTETS, SPECIFIC_UNITS])))
    return writer


def ceiling():
    """Funds at the greatest amount: top-ups and refunds that just fit and that don't."""
    writer = Hostile(10**18)
    for amount in [1, 10**18, 10**18 + 1, 0, 2**64 - 1]:
        writer.top_up(amount)
    writer.event(REFUND, asks(60, 1))
    writer.event(REFUND, asks(30, 10**12))
    writer.event(DIRECT_DEBITING, asks(60, 5))
    writer.event(REFUND, asks(60, 6))
    writer.event(REFUND, asks(60, 5))
    writer.event(REFUND, asks(60, 1))
    writer.event(DIRECT_DEBITING, asks(40, 10**12))
    writer.look_at_free()
    writer.event(REFUND, asks(40, 10**12))
    writer.event(CHECK_BALANCE, asks(40, 10**12))
    writer.session(b"s", INITIAL, asks(40, 10**12), asks(60, 1))
    writer.look_at_free()
    writer.top_up(1)
    writer.session(b"s", UPDATE, reports(40, 10**12))
    writer.top_up(10**18)
    writer.session(b"s", TERMINATION)
    writer.look_at_free()
    return writer


def floor():
    """Funds at the least amount: reports that just fit and that don't, of one service and of many."""
    writer = Hostile(1)
    identified = [service(40, number(SERVICE_IDENTIFIER, it), units_of(USED, "octets", 10**12)) for it in range(32)]
    writer.session(b"s", INITIAL, asks(40, 1))
    writer.session(b"t", INITIAL)
    writer.session(b"s", UPDATE, *identified)
    writer.session(b"s", UPDATE, reports(40, 10**12), reports(60, 2), asks(10, 1))
    writer.session(b"s", UPDATE, reports(40, 10**12), reports(60, 1))
    writer.session(b"s", UPDATE, reports(60, 1))
    writer.session(b"s", UPDATE, reports(30, 10**12), asks(60, 0))
    writer.session(b"s", TERMINATION, reports(60, 1))
    writer.session(b"s", UPDATE)
    writer.session(b"t", TERMINATION, *identified[:2])
    writer.session(b"t", TERMINATION, units_of(USED, "octets", 1))
    writer.session(b"t", UPDATE, group(USED))
    writer.event(DIRECT_DEBITING, asks(30, 1))
    writer.event(DIRECT_DEBITING, asks(60, 1))
    writer.session(b"u", INITIAL, asks(30, 5))
    writer.top_up(10**18)
    writer.session(b"s", UPDATE, reports(60, 1))
    writer.top_up(3)
    writer.session(b"s", TERMINATION, reports(60, 1))
    writer.look_at_free()
    # A report that the floor refuses leaves the session its deadline.
    writer.session(b"w", INITIAL, asks(60, 1))
    for _ in range(2):
        writer.send(credit_control(SUBSCRIBER, b"w", writer.fresh(), UPDATE, *identified[:3]), 1, NOW + 600)
    writer.say(f"sweep {NOW + 1199}")
    writer.look_at_free()
    writer.say(f"sweep {NOW + 1200}")
    writer.look_at_free()
    writer.session(b"w", UPDATE)
    # From the ceiling to the floor again and again: what is overrun in all passes 64 bits.
    writer.session(b"v", INITIAL)
    for _ in range(50):
        writer.top_up(10**18)
        writer.session(b"v", UPDATE, reports(40, 10**12))
        writer.session(b"v", UPDATE, reports(40, 10**12))
    writer.look_at_free()
    return writer


def crowd():
    """A thousand and twenty-four sessions over their limits at once, and more than may be open."""
    writer = Hostile(10**6)
    for it in range(1026):
        writer.session(b"s%d" % it, INITIAL, asks(60, 10))
    # How many another subscriber has open has nothing to do with it.
    writer.say(f"topup {NOW} 4:other 1 10")
    writer.session(b"s0", INITIAL, subscriber=(4, b"other"))
    writer.session(b"s5", TERMINATION, reports(60, 20_000))
    writer.session(b"s1026", INITIAL, asks(60, 10))
    writer.session(b"s1027", INITIAL, asks(60, 10))
    for it in range(1028):
        writer.session(b"s%d" % it, UPDATE, service(60, units_of(USED, "units", 2000), units_of(REQUESTED, "units", 10)))
    writer.say(f"sweep {NOW + 1199}")
    writer.session(b"s1028", INITIAL)
    writer.say(f"sweep {NOW + 1200}")
    writer.session(b"s1029", INITIAL)
    writer.session(b"s0", INITIAL)
    writer.session(b"s0", UPDATE)
    return writer


def full_house():
    """Sixty-four sessions of thirty-two live grants each, all of which report and ask anew, and end."""
    writer = Hostile(10**6)
    for kind in [INITIAL, UPDATE, TERMINATION]:
        for name in range(1, 65):
            services = [service(60, number(SERVICE_IDENTIFIER, it)) for it in range(32)]
            for it in services:
                it.data.append(units_of(REQUESTED, "units", name))
                if kind != INITIAL:
                    it.data.append(units_of(USED, "units", 2 * name))
            writer.session(b"h%d" % name, kind, *services)
        writer.look_at_free()
    return writer


def many_names():
    """Many peers, and many subscribers of one name each, over all shards."""
    writer = Hostile()
    for it in range(400):
        writer.say(f"open {it + 10} gw{it}.example")
        writer.say(f"topup {NOW} {it % 5}:{it // 5} 1 {it + 1}")
    for it in range(400):
        subscriber = it % 5, b"%d" % (it // 5)
        writer.put(credit_control(subscriber, b"one", 1, INITIAL, asks(60, 200)), it + 10)
    writer.say(f"sweep {NOW + 1199}")
    for it in range(400):
        subscriber = it % 5, b"%d" % (it // 5)
        writer.put(credit_control(subscriber, b"one", 2, UPDATE, reports(60, 300)), 409 - it)
    writer.say(f"sweep {NOW + 1200}")
    writer.look_at_free()
    return writer


def many_versions():
    """A thousand tariffs of a group, at moments beside each other, in no order."""
    writer = Writer(versions_plan())
    writer.say("open 1 gw1.example")
    writer.say("topup 0 0:491700000001 1 1")
    for moment in [0, 1, 2, 3, 498, 499, 500, 501, 997, 998, 999, 1000, 1001, NOW, *range(4, 1000, 37)]:
        writer.send(event(SUBSCRIBER, b"v", moment, PRICE_ENQUIRY, asks(10, 1)), 1, moment)
    return writer


def versions_plan():
    head = PLAN[: PLAN.index(b"tariff")].decode()
    tables = []
    for it in range(1000):
        moment = it * 577 % 1000 + 1
        begin = f"1970-01-01T00:{moment // 60:02}:{moment % 60:02}Z"
        tables.append(f'[[tariff]]\ngroup = 10\nunit = "octets"\nfrom = "{begin}"\nprice = {moment}\nblock = 1\n')
    return (head + "".join(tables)).encode()


def shown():
    """Refusals that show great AVPs, behind great Proxy-Infos."""
    writer = Hostile()
    for size in [1, 30_000]:
        proxy = Tree(PROXY_INFO, bytes(size))
        big = Tree(999, bytes(size), 0)
        pair = [service(10, big), service(10, big.copy())] if size == 1 else [service(10, Tree(999, bytes(15_000), 0)) for _ in range(2)]
        writer.session(b"s%d" % size, INITIAL, *pair, proxy)
        writer.event(DIRECT_DEBITING, *pair, proxy)
        writer.event(DIRECT_DEBITING, group(REQUESTED, long(TOTAL_OCTETS, MOST_UNITS + 1), big), proxy)
        writer.event(DIRECT_DEBITING, Tree(999, bytes(size)), proxy)
        writer.event(DIRECT_DEBITING, group(SERVICES, number(RATING_GROUP, 1), Tree(RATING_GROUP, bytes(size))), proxy)
        writer.event(DIRECT_DEBITING, units_of(USED, "units", 1), service(10, big), proxy)
    writer.look_at_free()
    return writer


MADE = [
    dictionary, places, values, great, many_identifiers, deep, many_services, openers, repeats, hosts, nobody, amounts, ceiling, floor, crowd,
    full_house, many_names, many_versions, shown,
]  # fmt: skip
SCRIPTS = {make.__name__: make for make in MADE}
SCRIPTS |= {f"{name} {way.__name__}": partial(way, make) for name, make in WHOLE.items() for way in [cut, short, falsified]}
