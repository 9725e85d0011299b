"""Records of acts octet for octet, and octets that are the record of no act: all by docs/FORMATS.md, in hexadecimal digits.

V is the octet of the version. In brackets stand the limit and the host of an initial request, which version 1 doesn't have. A row with "1:" or "2:"
in front is of a store of this layout alone.
"""

import re
from typing import NamedTuple

import stores
from charging import DEBIT, DIRECT_DEBITING, Entry
from plans import Tariff
from stores import Act, Told

MOMENT, LAST_MOMENT = 1_748_736_000, 4_102_444_799
NAME, HOST = b"gw1.example;1;1", b"gw1.example"
# The moment, the session and the number of a request in it.
AT, IN = "00000000683b9800", "0f 6777312e6578616d706c653b313b31"
FIRST, SECOND, THIRD = (f"{AT} {IN} {number:08x}" for number in range(3))
FROM = "[0400 0b 6777312e6578616d706c65]"
PRICED = "01 00000005 00000000000003e8"
BY_OCTETS = Tariff(5, 1000)
# A session that is held until the moment, in a plan that holds it for two seconds.
HELD = Act(2, MOMENT - 2, session=b"held", number=0, limit=64)


class Vector(NamedTuple):
    """The record of an act that stands behind a top-up of 1,000; acts between both; and the entries that it leaves."""

    text: str
    act: Act
    before: tuple = ()
    entries: tuple = ()


VECTORS = {
    "a top-up": Vector(f"V 01 {AT} 0000000000000007 00000000000003e8", Act(1, MOMENT, 7, 1000), (), (Entry(stores.TOP_UP, None, 0, 1000),)),
    "an initial request of two services": Vector(
        f"V 02 {FIRST} {FROM} 02 01 01 0000000a 0002 00000003 00000001 01 00000000000003e9 00 01 {PRICED} 01 00 0000 00 01 0000000000000000 00 00",
        Act(2, MOMENT, session=NAME, number=0, limit=1024, host=HOST, services=(
            Told(True, 10, (3, 1), 1001, None, "octets", BY_OCTETS), Told(True, None, (), None, 0, None, None))),
    ),
    "an initial request of no service": Vector(f"V 02 {FIRST} {FROM} 00", Act(2, MOMENT, session=NAME, number=0, limit=1024, host=HOST)),
    "an initial request of a Session-Id of one octet": Vector(
        f"V 02 {AT} 01 78 00000000 {FROM} 00", Act(2, MOMENT, session=b"x", number=0, limit=1024, host=HOST)),
    "an initial request of an unknown host": Vector(f"V 02 {FIRST} [0040 00] 00", Act(2, MOMENT, session=NAME, number=0, limit=64)),
    "an update": Vector(
        f"V 03 {SECOND} 01 00 00 0000 01 000000000000003c 01 000000000000002d 02 00",
        Act(3, MOMENT, session=NAME, number=1, services=(Told(False, None, (), 60, 45, "time", None),)),
    ),
    "a termination": Vector(f"V 04 {THIRD} 00", Act(4, MOMENT, session=NAME, number=2)),
    "a direct debit": Vector(
        f"V 05 {FIRST} 00 01 00 00 0000 01 00000000000003e9 00 01 {PRICED}",
        Act(5, MOMENT, session=NAME, number=0, action=DIRECT_DEBITING, services=(Told(False, None, (), 1001, None, "octets", BY_OCTETS),)),
        (), (Entry(DEBIT, None, 1001, -10),),
    ),
    "an expiry": Vector(f"V 06 {AT}", Act(6, MOMENT), (HELD,)),
}


def services(count, *texts):
    return f"{count:02x} {' '.join(texts)}"


def of_group(group, identifiers=0):
    """A service of a group that the plan doesn't have."""
    return f"01 01 {group:08x} {identifiers:04x} {identifiers * '00000009'} 00 00 00 00"


def asking(unit, asked="00", used="00", tariff="00", group=1):
    """A service that asks for so much and reports so much."""
    number = {"octets": 1, "time": 2, "units": 3, "": 0}[unit]
    return f"01 01 {group:08x} 0000 {asked} {used} {number:02x} {tariff}"


def number(units):
    return f"01 {units:016x}"


def priced(price, block):
    return f"01 {price:08x} {block:016x}"


def update(*texts):
    return f"V 03 {SECOND} {services(len(texts), *texts)}"


def event(text, action="03", count="01"):
    return f"V 05 {FIRST} {action} {count} {text}"


# Values that are at their limits.
AT_LIMITS = {
    "the last moment": f"V 04 {LAST_MOMENT:016x} {IN} 00000000 00",
    "the least Session-Id": f"V 04 {AT} 01 61 00000000 00",
    "the longest Session-Id": f"V 04 {AT} ff {255 * '61'} 00000000 00",
    "the greatest CC-Request-Number": f"V 04 {AT} {IN} ffffffff 00",
    "a limit of 64": f"V 02 {FIRST} [0040 00] 00",
    "a limit of 1,024": f"V 02 {FIRST} [0400 00] 00",
    "the longest host": f"V 02 {FIRST} [0040 ff {255 * '80'}] 00",
    "most services in version 1": f"V 02 {FIRST} [0400 00] {services(16, *map(of_group, range(16)))}",
    "most services in version 2": f"2: V 02 {FIRST} [0400 00] {services(32, *map(of_group, range(32)))}",
    "most identifiers": f"V 02 {FIRST} [0400 00] {services(1, of_group(1, 5460))}",
    "the least of each amount": update(asking("octets", number(1), number(0), priced(0, 1))),
    "the most octets": update(asking("octets", number(10**12), number(10**12), priced(10**6, 10**12))),
    "the most seconds": update(asking("time", number(2**32 - 1), number(10**12))),
    "the most units": update(asking("units", number(10**12), number(10**12))),
    "a group that the plan lacks": update(asking("", number(0), number(0))),
    "first identifiers apart": update("01 00 0001 00000001 00 00 00 00", "01 00 0001 00000002 00 00 00 00"),
    "most identifiers of two services": update(of_group(1, 2730), of_group(2, 2730)),
    "a balance check": event(asking("octets", number(1), tariff=priced(5, 1000)), "02"),
    "a price enquiry": event(asking("time", number(1), tariff=priced(5, 1000)), "03"),
}

# Octets that are the record of no act.
NO_RECORDS = {
    "nothing": "",
    "a version alone": "V",
    "version 0": f"00 06 {AT}",
    "version 3": f"03 06 {AT}",
    "version 1 in layout 2": f"2: {VECTORS['a direct debit'].text.replace('V', '01')}",
    "version 2 in layout 1": f"1: {VECTORS['a direct debit'].text.replace('V', '02')}",
    "kind 0": f"V 00 {AT}",
    "kind 7": f"V 07 {AT}",
    "a moment past the last": f"V 04 {LAST_MOMENT + 1:016x} {IN} 00000000 00",
    "a moment of nine octets": f"V 06 01{AT}",
    "an octet left over": f"V 06 {AT} 00",
    "an octet left over of a debit": f"{VECTORS['a direct debit'].text} 00",
    "an octet missing": VECTORS["a direct debit"].text[:-2],
    "a top-up of nothing": f"V 01 {AT} 0000000000000007 0000000000000000",
    "a top-up past the greatest": f"V 01 {AT} 0000000000000007 {10**18 + 1:016x}",
    "no Session-Id": f"V 04 {AT} 00 00000000 00",
    "a short Session-Id": f"V 04 {AT} ff {200 * '61'} 00000000 00",
    "a short host": f"2: V 02 {FIRST} [0040 ff {254 * '80'}] 00",
    **{f"a limit of {limit}": f"2: V 02 {FIRST} [{limit:04x} 00] 00" for limit in (0, 63, 65, 1023, 1025, 65535)},
    "the limit and the host of version 2": f"1: V 02 {FIRST} 0400 00 00",
    "too many services of version 1": f"1: V 02 {FIRST} {services(17, *map(of_group, range(17)))}",
    "too many services of version 2": f"2: V 02 {FIRST} [0400 00] {services(33, *map(of_group, range(33)))}",
    "too few services": f"V 02 {FIRST} [0400 00] {services(2, of_group(1))}",
    "too many identifiers": f"V 02 {FIRST} [0400 00] {services(1, of_group(1, 5461))}",
    "action 4": event(asking("octets", number(1)), "04"),
    "an event of no service": f"V 05 {FIRST} 00 00",
    "an event of two services": event(f"{asking('octets', number(1))} {asking('octets', number(1), group=2)}", count="02"),
    "an event that asks for nothing": event(asking("octets")),
    "form 2": update("02 00 0000 00 00 00 00"),
    "a flag of a group": update("01 02 00000001 0000 00 00 00 00"),
    "a flag of what is asked": update(asking("octets", "02 0000000000000001")),
    "a flag of what is reported": update(asking("octets", used="02 0000000000000001")),
    "a flag of a tariff": update(asking("octets", tariff="02 00000005 00000000000003e8")),
    "unit 4": update("01 00 0000 00 00 04 00"),
    "no octets asked": update(asking("octets", number(0))),
    "too many octets asked": update(asking("octets", number(10**12 + 1))),
    "too many seconds asked": update(asking("time", number(2**32))),
    "too many units asked": update(asking("units", number(10**12 + 1))),
    "too many octets reported": update(asking("octets", used=number(10**12 + 1))),
    "an amount without a unit": update(asking("", number(1))),
    "a report without a unit": update(asking("", used=number(1))),
    "a tariff without a unit": update(asking("", tariff=priced(5, 1000))),
    "a price past the greatest": update(asking("octets", tariff=priced(10**6 + 1, 1000))),
    "a block of nothing": update(asking("octets", tariff=priced(5, 0))),
    "a block past the greatest": update(asking("octets", tariff=priced(5, 10**12 + 1))),
    "two services of one group": update(of_group(1), of_group(1)),
    "second identifiers apart": update("01 00 0002 00000001 00000002 00 00 00 00", "01 00 0002 00000001 00000003 00 00 00 00"),
    "too many identifiers of two services": update(of_group(1, 2730), of_group(2, 2731)),
    "a service in single form beside another": update("00 00 0000 00 00 00 00", of_group(1)),
}


def octets_of(text, layout):
    """The octets of a row in a store of this layout; none where it is of the other one alone."""
    only, _, text = text.rpartition(": ")
    if only not in ("", str(layout)):
        return None
    text = re.sub(r"\[.*?\]", "", text) if layout == 1 else re.sub(r"[\[\]]", "", text)
    return bytes.fromhex(text.replace("V", f"{layout:02x}"))


def documented(path):
    """The records that stand in docs/FORMATS.md, each a block of lines behind four blanks."""
    with open(path, encoding="utf-8") as file:
        section = file.read().split("## Record of an act, version 2\n")[1].split("\n## ")[0]
    return [bytes.fromhex(block) for block in re.findall(r"(?m)(?:^    [0-9a-f ]+\n)+", section)]
