"""Texts that have no form, and texts that just have one: lines of a script, and plan files."""

from itertools import combinations

from hostile import PLAN

LINES = [
    b"connect", b"connect ", b"connect  1", b" connect 1", b"connect 1 ", b"connect +1", b"connect -1", b"connect 1\r", b"connect 0x1",
    b"connect 4294967295", b"connect 4294967296", b"connect 00000000000000000000000000000000000001", b"connect 1 2", b"Connect 1",
    b"connect 18446744073709551617", b"connect 1_0", b"connect\t1", b"connect \xd9\xa1", b"\r", b" ", b"\xff", b"#\xff", b" # 1", b"",
    b"open 1", b"open 1 ", b"open 1 h h", b"open 1 h", b"open 1 \xff\r\t", b"open 1 " + b"h" * 255, b"open 1 " + b"h" * 256,
    b"disconnect", b"disconnect 1", b"disconnect x", b"sweep", b"sweep 0", b"sweep 4102444799", b"sweep 4102444800", b"sweep 0 0",
    b"topup 0 0:1 1 1", b"topup 0 0:1 1", b"topup 0 5:1 1 1", b"topup 0 4:1 1 1", b"topup 0 00:1 1 1", b"topup 0 :1 1 1", b"topup 0 0: 1 1",
    b"topup 0 0 1 1", b"topup 0 0:1:2 1 1", b"topup 0 0:: 1 1", b"topup 0 0:\x7f 1 1", b"topup 0 0:\xc3\xa9 1 1", b"topup 0 -0:1 1 1",
    b"topup 0 0:" + b"1" * 64 + b" 1 1", b"topup 0 0:" + b"1" * 65 + b" 1 1", b"topup 0 256:1 1 1", b"topup 4102444800 0:1 1 1",
    b"topup 0 0:1 18446744073709551615 18446744073709551615", b"topup 0 0:1 18446744073709551616 1", b"topup 0 0:1 1 18446744073709551616",
    b"topup 0 0:1 1 99999999999999999999999999", b"topup 0 0:1 000000000000000000000000000000001 000",
    b"message 1 0 00", b"message 1 0 0", b"message 1 0 000", b"message 1 0 0g", b"message 1 0 Ff", b"message 1 0", b"message 1 0 ",
    b"message 1 4102444799 00", b"message 1 4102444800 00", b"message 1 0 0x00", b"message 1 0 00 00", b"message 1 0 00\t",
    b"message 1 0 " + b"00" * 65_536, b"message 1 0 " + b"00" * 65_537, b"message 4294967296 0 00", b"nothing 1",
]  # fmt: skip

PLANS = [
    b"", b"=", b"host", b"\xff", b"a = 1\na = 2", b"tariff = 1", b"tariff = []", b"[[tariff]]", PLAN + b"x = 9223372036854775808",
    PLAN + b"x = 9223372036854775807", PLAN + b"x = [{ y = -9223372036854775809 }]", PLAN + b"x = -9223372036854775808", PLAN + b"host = 1",
]  # fmt: skip

# What the keys of a plan may be in place of what they are, without a fault or with one.
NAMES = ['""', '"a"', f'"{"a" * 255}"', f'"{"a" * 256}"', '"a b"', '"\\u00e9"', '"~!"', '"\\u007f"', "1", "true", "[]", '["a"]']
NUMBERS = ["0", "1", "-1", "1.0", '"1"', "true", "[1]", "{}", "2020-01-01", "9223372036854775807"]
KEYS = {
    "host": NAMES,
    "realm": NAMES,
    "address": ['"1.2.3.4"', '"255.0.0.0"', '"256.0.0.0"', '"01.2.3.4"', '"1.2.3"', '"1.2.3.4.5"', '"1.2.3."', '" 1.2.3.4"', '"+1.2.3.4"', '"::1"', "1.2"],
    "shards": [*NUMBERS, "8", "9"],
    "default_group": [*NUMBERS, "4294967295", "4294967296", "60"],
    "quantum": [*NUMBERS, "1000000000000", "1000000000001"],
    "validity": [*NUMBERS, "1000000", "1000001"],
    "hold": [*NUMBERS, "1000000", "1000001"],
    "currency": [*NUMBERS, "999", "1000"],
    "exponent": [*NUMBERS, "-9", "9", "-10", "10"],
    "tariff": ["1", "{}", "[]", "[1]", "[[]]", "[{}]", '"a"'],
}
TABLE = {"group": "10", "unit": '"octets"', "from": '"2020-01-01T00:00:00Z"', "price": "5", "block": "1000"}
MOMENTS = [
    "2000-02-29T23:59:59Z", "2100-02-29T00:00:00Z", "2001-02-29T00:00:00Z", "2020-13-01T00:00:00Z", "2020-00-01T00:00:00Z", "2020-01-00T00:00:00Z",
    "2020-04-31T00:00:00Z", "2020-01-01T24:00:00Z", "2020-01-01T00:60:00Z", "2020-01-01T00:00:60Z", "2020-01-01T00:00:00z", "2020-01-01t00:00:00Z",
    "2020-01-01 00:00:00Z", "2020-01-01T00:00:00", "2020-01-01T00:00:00.0Z", "2020-01-01T00:00:00+00:00", "2020-1-1T00:00:00Z", "20200101T000000Z",
    "1969-12-31T23:59:59Z", "1970-01-01T00:00:00Z", "2099-12-31T23:59:59Z", "2100-01-01T00:00:00Z", "0000-01-01T00:00:00Z", "9999-12-31T23:59:59Z",
    "+2020-01-01T00:00:00Z", "2020-01-01T00:00:00Z ", " 2020-01-01T00:00:00Z", "2020-W01-1T00:00:00Z", "2020-001T00:00:00Z", "2020-01-01", "",
]  # fmt: skip
TABLE_KEYS = {
    "group": [*NUMBERS, "4294967295", "4294967296"],
    "unit": ['"time"', '"units"', '"Octets"', '""', "1", "true"],
    "from": [*(f'"{moment}"' for moment in MOMENTS), "2020-01-01T00:00:00Z", "1"],
    "price": [*NUMBERS, "1000000", "1000001"],
    "block": [*NUMBERS, "1000000000000", "1000000000001"],
}
FIRST = {
    "host": '"h"', "realm": '"r"', "address": '"127.0.0.1"', "shards": "1", "default_group": "10", "quantum": "1", "validity": "1", "hold": "1",
    "currency": "0", "exponent": "0",
}  # fmt: skip


def line_scripts():
    """A script for each line, behind one that is in order and lines that are no events, and with others behind it."""
    for line in LINES:
        yield f"line {line[:60]!r}", PLAN, b"open 1 gw1.example\n\n# a comment\n" + line
        yield f"line {line[:60]!r} with more behind it", PLAN, line + b"\n\nconnect x\n"


def table_text(table):
    return "{ " + ", ".join(f"{key} = {value}" for key, value in table.items()) + " }"


def plan_text(keys, tables):
    """A plan of keys and tables of tariffs; a key without a value is missing."""
    texts = {"tariff": f"[{', '.join(map(table_text, tables))}]"} | keys
    return "".join(f"{key} = {value}\n" for key, value in texts.items() if value).encode()


def plan_texts():
    yield from PLANS
    for key, values in KEYS.items():
        for value in [None, *values]:
            yield plan_text(FIRST | {key: value}, [TABLE])
    # Of two keys that are both at fault, in whatever order they stand, the first to be looked at tells its fault.
    for one, other in combinations(KEYS, 2):
        for values in [(None, "-99"), ("-99", None), ('""', "true"), ("true", '""')]:
            wrong = dict(zip((other, one), values))
            yield plan_text(wrong | {key: value for key, value in FIRST.items() if key not in wrong}, [TABLE])
    for key, values in TABLE_KEYS.items():
        for value in [None, *values]:
            table = {it: text for it, text in (TABLE | {key: value}).items() if text}
            yield plan_text(FIRST, [table])
            yield plan_text(FIRST, [TABLE, table])
    for one, other in combinations(TABLE, 2):
        for values in [("-99", '""'), ('""', "-99"), ("true", '"x"')]:
            wrong = dict(zip((other, one), values))
            yield plan_text(FIRST, [wrong | {key: text for key, text in TABLE.items() if key not in wrong}])
            yield plan_text(FIRST, [TABLE | {one: values[0]}, TABLE | {other: values[1]}])
    for count in [999, 1000, 1001]:
        yield plan_text(FIRST, [TABLE | {"from": f'"2020-01-01T00:{it // 60:02}:{it % 60:02}Z"'} for it in range(count)])
    yield plan_text(FIRST, [TABLE | {"from": '"2021-01-01T00:00:00Z"', "unit": '"time"'}, TABLE, {}])
    yield plan_text(FIRST | {"default_group": "11"}, [TABLE, TABLE | {"group": "11"}])


def plan_scripts():
    """A script whose first line has no form, under each plan: it is told behind a plan that is in order."""
    for place, text in enumerate(plan_texts()):
        yield f"plan {place}", text, b"connect x"
