"""What is wrong with a request: each check goes over the whole message before the next, and its first fault is told (RFC 6733, section 7.1)."""

from typing import NamedTuple

from wire import *

UNSUPPORTED_COMMAND, UNSUPPORTED_APPLICATION, INVALID_HEADER_BITS = 3001, 3007, 3008
UNSUPPORTED_AVP, INVALID_VALUE, MISSING_AVP, CONTRADICTING_AVPS = 5001, 5004, 5005, 5007
TOO_MANY_AVPS, NO_COMMON_APPLICATION, INVALID_LENGTH, NO_COMMON_SECURITY = 5009, 5010, 5014, 5017

CREDIT_CONTROL, CAPABILITIES, WATCHDOG, DISCONNECT = 272, 257, 280, 282
COMMANDS = {(0, CAPABILITIES), (0, WATCHDOG), (0, DISCONNECT), (4, CREDIT_CONTROL)}
CREDIT_CONTROL_APPLICATION, RELAY = 4, 0xFFFFFFFF
INITIAL, UPDATE, TERMINATION, EVENT = 1, 2, 3, 4
MOST_SERVICES = 32
MOST_UNITS = 10**12

# The groups that are looked into, and the groups inside these.
UNITS = {REQUESTED: {}, USED: {}}
WALKED = {
    CREDIT_CONTROL: {SUBSCRIPTION_ID: {}, **UNITS, SERVICES: UNITS},
    CAPABILITIES: {VENDOR_SPECIFIC_APPLICATION_ID: {}},
    WATCHDOG: {},
    DISCONNECT: {},
}
AMOUNTS = [TIME, TOTAL_OCTETS, INPUT_OCTETS, OUTPUT_OCTETS, SPECIFIC_UNITS]
ONCE_IN_GROUP = {
    SUBSCRIPTION_ID: [SUBSCRIPTION_TYPE, SUBSCRIPTION_DATA],
    SERVICES: [RATING_GROUP, REQUESTED],
    REQUESTED: AMOUNTS,
    USED: AMOUNTS,
}


class Refusal(Exception):
    """A Result-Code, and the AVPs that its Failed-AVP shows, spelled."""

    def __init__(self, result, *shown):
        super().__init__(result)
        self.result, self.failed = result, b"".join(shown)


class Needs(NamedTuple):
    """What a command has at its message's level: required once, required at least once, required once behind these, and at most so often."""

    once: list
    several: list = []
    last: list = []
    most: list = []


NEEDS = {
    CAPABILITIES: Needs([ORIGIN_HOST, ORIGIN_REALM, VENDOR_ID, PRODUCT_NAME], [HOST_IP_ADDRESS]),
    WATCHDOG: Needs([ORIGIN_HOST, ORIGIN_REALM]),
    DISCONNECT: Needs([ORIGIN_HOST, ORIGIN_REALM, DISCONNECT_CAUSE]),
}
SESSION_NEEDS = Needs(
    [SESSION_ID, ORIGIN_HOST, ORIGIN_REALM, DESTINATION_REALM, AUTH_APPLICATION_ID, SERVICE_CONTEXT_ID, REQUEST_TYPE, REQUEST_NUMBER],
    [SUBSCRIPTION_ID],
    [],
    [(SERVICE_IDENTIFIER, 1), (REQUESTED_ACTION, 1), (REQUESTED, 1), (SERVICES, MOST_SERVICES)],
)
EVENT_NEEDS = SESSION_NEEDS._replace(last=[REQUESTED_ACTION])
# Updates and terminations may name nobody.
REPORT_NEEDS = SESSION_NEEDS._replace(several=[])


def copy(avp):
    return spell(avp.code, avp.data, avp.flags)


def empty(code):
    """What stands for a missing AVP."""
    return spell(code, bytes(LEAST_OCTETS[code]), 0 if code == PRODUCT_NAME else MANDATORY)


def all_of(avps, code):
    return [avp for avp in avps if avp.code == code]


def first_of(avps, code):
    return next((avp for avp in avps if avp.code == code), None)


def check_header(header):
    if header.flags & REQUEST and header.flags & ERROR:
        raise Refusal(INVALID_HEADER_BITS)
    if header.application not in (0, CREDIT_CONTROL_APPLICATION):
        raise Refusal(UNSUPPORTED_APPLICATION)
    if (header.application, header.command) not in COMMANDS:
        raise Refusal(UNSUPPORTED_COMMAND)


def read_message_list(octets):
    try:
        return read_list(octets)
    except BadLayout as broken:
        raise Refusal(INVALID_LENGTH, spell(broken.code, broken.data, broken.flags)) from None


class Group(NamedTuple):
    avp: Avp
    members: list
    groups: list

    def inner(self, code):
        return [group for group in self.groups if group.avp.code == code]


def walk(avps, codes):
    """The groups with one of the codes, in their order, each with what stands in it."""
    groups = []
    for avp in avps:
        if avp.code in codes:
            try:
                members = read_list(avp.data)
            except BadLayout as broken:
                if broken.is_short:
                    broken = BadLayout(avp.code, avp.flags)
                raise Refusal(INVALID_LENGTH, spell(broken.code, broken.data, broken.flags)) from None
            groups.append(Group(avp, members, walk(members, codes[avp.code])))
    return groups


def flat(groups):
    """The groups in the order in which they stand, each before those inside it."""
    for group in groups:
        yield group
        yield from flat(group.groups)


def check_known(avps):
    for avp in avps:
        if avp.code not in LEAST_OCTETS and avp.flags & MANDATORY:
            raise Refusal(UNSUPPORTED_AVP, copy(avp))


def check_most(avps, code, most):
    found = all_of(avps, code)
    if len(found) > most:
        raise Refusal(TOO_MANY_AVPS, copy(found[most]))


def check_there(avps, code):
    if first_of(avps, code) is None:
        raise Refusal(MISSING_AVP, empty(code))


def check_shape(command, avps):
    """The walked groups of a message whose layout, AVPs and their numbers are right."""
    needs = NEEDS.get(command) or needs_by_type(avps)
    groups = walk(avps, WALKED[command])
    check_known(avps)
    for group in flat(groups):
        check_known(group.members)
    for code, most in [(code, 1) for code in needs.once + needs.last] + needs.most:
        check_most(avps, code, most)
    for group in flat(groups):
        for code in ONCE_IN_GROUP.get(group.avp.code, []):
            check_most(group.members, code, 1)
    for code in needs.once + needs.several + needs.last:
        check_there(avps, code)
    for group in groups:
        if group.avp.code == SUBSCRIPTION_ID:
            check_there(group.members, SUBSCRIPTION_TYPE)
            check_there(group.members, SUBSCRIPTION_DATA)
    return groups


def needs_by_type(avps):
    """What a Credit-Control-Request needs, by the four octets of its first CC-Request-Type."""
    kind = first_of(avps, REQUEST_TYPE)
    if kind is None or len(kind.data) != 4:
        return SESSION_NEEDS
    return {EVENT: EVENT_NEEDS, UPDATE: REPORT_NEEDS, TERMINATION: REPORT_NEEDS}.get(kind.number(), SESSION_NEEDS)


def check_size(avp, size):
    if len(avp.data) != size:
        raise Refusal(INVALID_LENGTH, copy(avp))


def check_name(avp):
    if not 1 <= len(avp.data) <= 255:
        raise Refusal(INVALID_LENGTH, copy(avp))


def check_number(avp, least, most):
    check_size(avp, 4)
    if not least <= avp.number() <= most:
        raise Refusal(INVALID_VALUE, copy(avp))
    return avp.number()


class Units(NamedTuple):
    """Amounts, in each of the units."""

    octets: int = 0
    time: int = 0
    units: int = 0

    def plus(self, other):
        return Units(*map(sum, zip(self, other)))


def read_units(group):
    """The amounts of a Requested- or Used-Service-Unit."""
    amounts = {}
    for code in AMOUNTS:
        for avp in all_of(group.members, code):
            check_size(avp, LEAST_OCTETS[code])
            amounts[code] = avp.number()
    apart = amounts.get(INPUT_OCTETS, 0) + amounts.get(OUTPUT_OCTETS, 0)
    return Units(amounts.get(TOTAL_OCTETS, apart), amounts.get(TIME, 0), amounts.get(SPECIFIC_UNITS, 0))


def read_requested(groups):
    """The amounts of the Requested-Service-Unit, if there is one."""
    for group in groups:
        units = read_units(group)
        if max(units) > MOST_UNITS:
            raise Refusal(INVALID_VALUE, copy(group.avp))
        return units
    return None


def read_used(groups):
    """The sums of the Used-Service-Units, if there is one."""
    total = None
    for group in groups:
        units = read_units(group)
        total = total.plus(units) if total else units
        if max(total) > MOST_UNITS:
            raise Refusal(INVALID_VALUE, copy(group.avp))
    return total


class Asked(NamedTuple):
    """What a request says of one service."""

    group: int | None
    identifiers: tuple
    requested: Units | None
    used: Units | None

    def key(self):
        return self.group, self.identifiers[:1]


class Request(NamedTuple):
    """A Credit-Control-Request that passed its checks. An update or a termination may name no subscriber."""

    subscriber: tuple | None
    session: bytes
    number: int
    kind: int
    action: int | None
    is_multi: bool
    services: list


def read_subscriber(groups):
    """The type and the data of the first Subscription-Id of type E.164, or else of the first, if there is one."""
    for group in groups:
        check_size(first_of(group.members, SUBSCRIPTION_TYPE), 4)
    if not groups:
        return None
    of_e164 = [group for group in groups if first_of(group.members, SUBSCRIPTION_TYPE).number() == 0]
    chosen = (of_e164 or groups)[0].members
    kind = check_number(first_of(chosen, SUBSCRIPTION_TYPE), 0, 4)
    data = first_of(chosen, SUBSCRIPTION_DATA)
    if not is_subscriber_data(data.data):
        raise Refusal(INVALID_VALUE, copy(data))
    return kind, data.data


def is_subscriber_data(data):
    return 1 <= len(data) <= 64 and all(0x21 <= octet <= 0x7E for octet in data)


def read_service(members, groups):
    """A service of the AVPs of its group, or of the message's level, where a Rating-Group has no use."""
    identifiers = []
    for avp in all_of(members, SERVICE_IDENTIFIER):
        check_size(avp, 4)
        identifiers.append(avp.number())
    requested = read_requested([group for group in groups if group.avp.code == REQUESTED])
    used = read_used([group for group in groups if group.avp.code == USED])
    return Asked(None, tuple(identifiers), requested, used)


def read_multi_service(group):
    rating_group = first_of(group.members, RATING_GROUP)
    if rating_group is not None:
        check_size(rating_group, 4)
    service = read_service(group.members, group.groups)
    return service._replace(group=rating_group and rating_group.number())


def check_together(groups, kind, services):
    """That no two AVPs contradict one another."""
    multi = [group.avp for group in groups if group.avp.code == SERVICES]
    for code in (REQUESTED, USED):
        for group in groups:
            if multi and group.avp.code == code:
                raise Refusal(CONTRADICTING_AVPS, copy(group.avp), copy(multi[0]))
    if kind == EVENT and len(multi) > 1:
        raise Refusal(CONTRADICTING_AVPS, copy(multi[0]), copy(multi[1]))
    keys = {}
    for avp, service in zip(multi, services):
        if service.key() in keys:
            raise Refusal(CONTRADICTING_AVPS, copy(keys[service.key()]), copy(avp))
        keys[service.key()] = avp


def read_credit_control(avps):
    """The request of a message's list, or its first fault (RFC 8506, section 3.1)."""
    groups = check_shape(CREDIT_CONTROL, avps)
    session = first_of(avps, SESSION_ID)
    check_name(session)
    check_number(first_of(avps, AUTH_APPLICATION_ID), 4, 4)
    kind = check_number(first_of(avps, REQUEST_TYPE), 1, 4)
    number = first_of(avps, REQUEST_NUMBER)
    check_size(number, 4)
    action = check_number(first_of(avps, REQUESTED_ACTION), 0, 3) if kind == EVENT else None
    subscriber = read_subscriber([group for group in groups if group.avp.code == SUBSCRIPTION_ID])
    single = read_service(avps, groups)
    multi = [read_multi_service(group) for group in groups if group.avp.code == SERVICES]
    check_together(groups, kind, multi)
    names_one = single.identifiers or single.requested is not None or single.used is not None
    services = multi or ([single] if names_one or kind == EVENT else [])
    return Request(subscriber, session.data, number.number(), kind, action, bool(multi), services)


def check_capabilities(avps):
    """The Origin-Host of a Capabilities-Exchange-Request (RFC 6733, section 5.3.1)."""
    groups = check_shape(CAPABILITIES, avps)
    host = first_of(avps, ORIGIN_HOST)
    check_name(host)
    applications = all_of(avps, AUTH_APPLICATION_ID)
    securities = all_of(avps, INBAND_SECURITY_ID)
    for avp in applications + securities:
        check_size(avp, 4)
    for group in groups:
        # Of several in one Vendor-Specific-Application-Id only the first is looked at.
        for avp in all_of(group.members, AUTH_APPLICATION_ID)[:1]:
            check_size(avp, 4)
            applications.append(avp)
    if not any(avp.number() in (CREDIT_CONTROL_APPLICATION, RELAY) for avp in applications):
        raise Refusal(NO_COMMON_APPLICATION)
    if securities and all(avp.number() for avp in securities):
        raise Refusal(NO_COMMON_SECURITY)
    return host.data


def check_watchdog(avps):
    check_shape(WATCHDOG, avps)


def check_disconnect(avps):
    check_shape(DISCONNECT, avps)
    check_number(first_of(avps, DISCONNECT_CAUSE), 0, 2)
