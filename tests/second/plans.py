"""Plan files: the terms of a server and its tariffs, and the first fault of a text."""

import re
import tomllib
from datetime import datetime, timezone
from typing import NamedTuple

from refusals import Asked

NO_TOML, MISSING_KEY, OUT_OF_RANGE, BAD_MOMENT = 20, 21, 22, 23
LAST_MOMENT = 4_102_444_799
MOST_TIME = 2**32 - 1
UNIT_NAMES = ["octets", "time", "units"]


class BadPlan(Exception):
    """The number of a plan's first fault."""


class Tariff(NamedTuple):
    price: int
    block: int

    def price_of(self, units):
        return -(-units // self.block) * self.price

    def most_units(self, asked, free):
        """The greatest amount up to the one asked whose price is nothing or within what is free."""
        if self.price_of(asked) == 0 or self.price_of(asked) <= free:
            return asked
        return min(asked, max(free, 0) // self.price * self.block)


class Keys:
    """The keys of a table, each checked for its type and its limits when it is asked for."""

    def __init__(self, table):
        self.table = table

    def value(self, key, kind):
        value = self.table.get(key)
        # A truth is no number here, though it is one in Python.
        if type(value) is not kind:
            raise BadPlan(MISSING_KEY)
        return value

    def number(self, key, least, most):
        value = self.value(key, int)
        if not least <= value <= most:
            raise BadPlan(OUT_OF_RANGE)
        return value

    def name(self, key):
        value = self.value(key, str)
        if not re.fullmatch(r"[!-~]{1,255}", value):
            raise BadPlan(OUT_OF_RANGE)
        return value.encode()

    def address(self, key):
        parts = self.value(key, str).split(".")
        if len(parts) != 4 or not all(re.fullmatch(r"0|[1-9][0-9]{0,2}", part) and int(part) < 256 for part in parts):
            raise BadPlan(OUT_OF_RANGE)
        return bytes(map(int, parts))

    def unit(self, key):
        value = self.value(key, str)
        if value not in UNIT_NAMES:
            raise BadPlan(OUT_OF_RANGE)
        return value

    def moment(self, key):
        value = self.value(key, str)
        if not re.fullmatch(r"[0-9]{4}-[0-9]{2}-[0-9]{2}T[0-9]{2}:[0-9]{2}:[0-9]{2}Z", value):
            raise BadPlan(BAD_MOMENT)
        try:
            moment = int(datetime(*map(int, re.findall("[0-9]+", value)), tzinfo=timezone.utc).timestamp())
        except ValueError:
            raise BadPlan(BAD_MOMENT) from None
        if not 0 <= moment <= LAST_MOMENT:
            raise BadPlan(BAD_MOMENT)
        return moment

    def tables(self, key):
        tables = self.value(key, list)
        if not all(type(table) is dict for table in tables):
            raise BadPlan(MISSING_KEY)
        if not 1 <= len(tables) <= 1000:
            raise BadPlan(OUT_OF_RANGE)
        return map(Keys, tables)


class Plan:
    def __init__(self, octets):
        keys = Keys(read_toml(octets))
        self.host, self.realm = keys.name("host"), keys.name("realm")
        self.address = keys.address("address")
        self.shards = keys.number("shards", 1, 8)  # which changes no answer
        self.default_group = keys.number("default_group", 0, 2**32 - 1)
        self.quantum = keys.number("quantum", 1, 10**12)
        self.validity, self.hold = keys.number("validity", 1, 10**6), keys.number("hold", 1, 10**6)
        self.currency, self.exponent = keys.number("currency", 0, 999), keys.number("exponent", -9, 9)
        tariffs = [read_tariff(table) for table in keys.tables("tariff")]
        self.units = {group: unit for group, unit, _, _ in tariffs}
        self.versions = {group: {} for group in self.units}
        for group, unit, begin, tariff in tariffs:
            if unit != self.units[group] or begin in self.versions[group]:
                raise BadPlan(OUT_OF_RANGE)
            self.versions[group][begin] = tariff
        if self.default_group not in self.units:
            raise BadPlan(OUT_OF_RANGE)

    def tariff(self, group, moment):
        """The version of the group's tariff with the greatest beginning at or before the moment."""
        versions = self.versions.get(group, {})
        begun = [begin for begin in versions if begin <= moment]
        return versions[max(begun)] if begun else None

    def service(self, asked, is_event, moment):
        """A service of a request: its amounts in the unit of its group, and the tariff of the moment."""
        group = self.default_group if asked.group is None else asked.group
        unit = self.units.get(group)
        requested, used = amount_of(asked.requested, unit), amount_of(asked.used, unit)
        if is_event:
            requested = requested or (1 if unit else 0)
        elif requested == 0 and unit:
            requested = min(self.quantum, MOST_TIME) if unit == "time" else self.quantum
        return Service(asked, requested, used, unit, self.tariff(group, moment))


def amount_of(units, unit):
    """The amount that counts, if there are any; without a unit it is nothing."""
    return None if units is None else getattr(units, unit) if unit else 0


class Service(NamedTuple):
    asked: Asked
    requested: int | None
    used: int | None
    unit: str | None
    tariff: Tariff | None

    def key(self):
        return self.asked.key()


def read_tariff(keys):
    group, unit, begin = keys.number("group", 0, 2**32 - 1), keys.unit("unit"), keys.moment("from")
    return group, unit, begin, Tariff(keys.number("price", 0, 10**6), keys.number("block", 1, 10**12))


def read_toml(octets):
    try:
        table = tomllib.loads(octets.decode())
    except (UnicodeDecodeError, tomllib.TOMLDecodeError):
        raise BadPlan(NO_TOML) from None
    if not fits(table):
        raise BadPlan(NO_TOML)
    return table


def fits(value):
    """Whether each number has 64 bits at most."""
    if isinstance(value, dict):
        return all(map(fits, value.values()))
    if isinstance(value, list):
        return all(map(fits, value))
    return type(value) is not int or -(2**63) <= value < 2**63
