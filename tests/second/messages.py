"""Messages as trees of AVPs that may be wrong in any way, and their octets."""

import struct
from dataclasses import dataclass, replace

from wire import *


@dataclass
class Tree:
    """An AVP to be: its data is octets, or the trees of a group."""

    code: int
    data: bytes | list
    flags: int = MANDATORY
    vendor: int | None = None
    length: int | None = None  # where it isn't what the data says
    padding: int = 0  # what its padding octets are
    is_cut: bool = False  # whether its padding is left out

    def octets(self):
        data = spelled(self.data)
        if self.vendor is not None:
            data = self.vendor.to_bytes(4, "big") + data
        length = 8 + len(data) if self.length is None else self.length
        padding = b"" if self.is_cut else bytes([self.padding]) * (-len(data) % 4)
        return struct.pack(">II", self.code, self.flags << 24 | length) + data + padding

    def copy(self):
        return replace(self, data=copied(self.data))


def spelled(data):
    return b"".join(tree.octets() for tree in data) if isinstance(data, list) else data


def copied(data):
    return [tree.copy() for tree in data] if isinstance(data, list) else data


def number(code, value):
    return Tree(code, value.to_bytes(4, "big"))


def long(code, value):
    return Tree(code, value.to_bytes(8, "big"))


def group(code, *trees):
    return Tree(code, list(trees))


def every(trees):
    """Each tree with the list in which it stands."""
    for tree in trees:
        yield trees, tree
        if isinstance(tree.data, list):
            yield from every(tree.data)


@dataclass
class Message:
    command: int
    trees: list
    application: int = 0
    flags: int = REQUEST
    hop_by_hop: int = 0
    end_to_end: int = 0
    version: int = 1
    length: int | None = None  # where it isn't that of the octets
    tail: bytes = b""

    def octets(self):
        body = spelled(self.trees)
        body += bytes(-len(body) % 4) + self.tail
        length = HEADER_OCTETS + len(body) if self.length is None else self.length
        return (
            struct.pack(">II", self.version << 24 | length, self.flags << 24 | self.command)
            + struct.pack(">III", self.application, self.hop_by_hop, self.end_to_end)
            + body
        )

    def copy(self):
        return replace(self, trees=copied(self.trees))


# Groups whose AVPs are trees of their own where octets are taken for trees.
GROUPS = {SERVICES, REQUESTED, USED, SUBSCRIPTION_ID, GRANTED, FINAL_UNIT_INDICATION}


def trees_of(octets):
    """The trees of octets that spell AVPs without a vendor, with padding in zeros."""
    trees = []
    while octets:
        code, word = struct.unpack(">II", octets[:8])
        length = word & 0xFFFFFF
        data = octets[8:length]
        trees.append(Tree(code, trees_of(data) if code in GROUPS else data, word >> 24))
        octets = octets[length + -length % 4 :]
    return trees


def message_of(text):
    """The message of these octets, in hex."""
    octets = bytes.fromhex(text)
    _, word, application, hop_by_hop, end_to_end = struct.unpack(">IIIII", octets[:HEADER_OCTETS])
    message = Message(word & 0xFFFFFF, trees_of(octets[HEADER_OCTETS:]), application, word >> 24, hop_by_hop, end_to_end)
    if message.octets() != octets:
        raise ValueError("octets that aren't those of their trees")
    return message


# Plain requests, with nothing that isn't wanted.


def subscription(subscriber):
    kind, data = subscriber
    return group(SUBSCRIPTION_ID, number(SUBSCRIPTION_TYPE, kind), Tree(SUBSCRIPTION_DATA, data))


def credit_control(subscriber, session, request_number, kind, *rest):
    """A request of a subscriber, or of one whom it doesn't name."""
    trees = [
        Tree(SESSION_ID, session),
        Tree(ORIGIN_HOST, b"gw1.example"),
        Tree(ORIGIN_REALM, b"example"),
        Tree(DESTINATION_REALM, b"example"),
        number(AUTH_APPLICATION_ID, 4),
        Tree(SERVICE_CONTEXT_ID, b"data@example"),
        number(REQUEST_TYPE, kind),
        number(REQUEST_NUMBER, request_number),
        *([subscription(subscriber)] if subscriber else []),
        *rest,
    ]
    return Message(272, trees, 4)


def event(subscriber, session, request_number, action, *rest):
    return credit_control(subscriber, session, request_number, 4, number(REQUESTED_ACTION, action), *rest)


def units_of(code, unit, amount):
    """A Requested- or Used-Service-Unit."""
    if unit == "time":
        return group(code, number(TIME, amount))
    return group(code, long(TOTAL_OCTETS if unit == "octets" else SPECIFIC_UNITS, amount))


def base_request(command, *rest):
    return Message(command, [Tree(ORIGIN_HOST, b"gw1.example"), Tree(ORIGIN_REALM, b"example"), *rest])


def capabilities(*rest):
    return base_request(257, Tree(HOST_IP_ADDRESS, b"\0\1\x7f\0\0\1"), number(VENDOR_ID, 0), Tree(PRODUCT_NAME, b"gw", 0), *rest)


EDGES = [0, 1, 2, 3, 4, 5, 7, 255, 256, 10**12, 10**12 + 1, 2**31, 2**32 - 1, 2**63, 2**64 - 1]
UNKNOWN = [413, 999, 0, 2**32 - 1]


def spoil(dice, trees):
    """Changes an AVP at any depth in one way, and sometimes others beside it in the same way."""
    lists = [trees] + [tree.data for _, tree in every(trees) if isinstance(tree.data, list)]
    where = dice.choice(lists)
    way = dice.choice(WAYS)
    for tree in dice.sample(where, min(len(where), dice.choice([1, 1, 1, 1, 2, 3, 6]))):
        way(dice, where, tree)


def leave_out(dice, where, tree):
    where.remove(tree)


def double(dice, where, tree):
    where.insert(dice.randrange(len(where) + 1), tree.copy())


def resize(dice, where, tree):
    data = spelled(tree.data)
    tree.data = data[: dice.randrange(len(data) + 1)] if dice.random() < 0.5 else data + dice.randbytes(dice.randint(1, 9))


def revalue(dice, where, tree):
    size = len(spelled(tree.data))
    tree.data = (dice.choice(EDGES) % 256**size).to_bytes(size, "big")


def reflag(dice, where, tree):
    tree.flags = dice.choice([0, MANDATORY, VENDOR, VENDOR | MANDATORY, 0x20, 0x7F, dice.randrange(256)])


def rename(dice, where, tree):
    tree.code = any_code(dice)


def any_code(dice):
    return dice.choice(dice.choice([list(LEAST_OCTETS), UNKNOWN]))


def relength(dice, where, tree):
    right = 8 + len(spelled(tree.data))
    tree.length = dice.choice([0, 7, 8, 11, 12, right - 1, right + 1, right + 2, right + 4, right + 8, 0xFFFFFF])


def put_in(dice, where, tree):
    vendor = dice.choice([None, None, 10415])
    flags = dice.choice([0, MANDATORY, MANDATORY]) | (0 if vendor is None else VENDOR)
    where.insert(dice.randrange(len(where) + 1), Tree(any_code(dice), dice.randbytes(dice.randrange(13)), flags, vendor))


def scramble(dice, where, tree):
    """A rest that is no AVP, which isn't always too short for one."""
    tree.data = spelled(tree.data) + dice.randbytes(dice.randrange(12))


def swap(dice, where, tree):
    dice.shuffle(where)


def dirty(dice, where, tree):
    tree.padding, tree.is_cut = dice.randrange(256), dice.random() < 0.5


def wrap(dice, where, tree):
    """One group more around it."""
    where[where.index(tree)] = group(dice.choice([REQUESTED, USED, SERVICES, SUBSCRIPTION_ID, PROXY_INFO]), tree)


WAYS = [leave_out, double, double, resize, revalue, revalue, reflag, rename, relength, put_in, put_in, scramble, swap, dirty, wrap]
