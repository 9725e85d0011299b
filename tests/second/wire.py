"""Octets of Diameter: AVPs, headers, and the dictionary of the profile (RFC 6733, sections 3 and 4; RFC 8506, section 8).

An AVP of a vendor (V set) counts nowhere in the profile: once its layout is judged, a list that was read doesn't have it.
"""

import struct
from typing import NamedTuple

REQUEST, PROXIABLE, ERROR = 0x80, 0x40, 0x20
VENDOR, MANDATORY = 0x80, 0x40
HEADER_OCTETS, MOST_OCTETS = 20, 65_532

SESSION_ID, ORIGIN_HOST, ORIGIN_REALM, DESTINATION_REALM = 263, 264, 296, 283
HOST_IP_ADDRESS, AUTH_APPLICATION_ID, VENDOR_SPECIFIC_APPLICATION_ID = 257, 258, 260
VENDOR_ID, RESULT_CODE, PRODUCT_NAME, INBAND_SECURITY_ID = 266, 268, 269, 299
DISCONNECT_CAUSE, FAILED_AVP, PROXY_INFO = 273, 279, 284
INPUT_OCTETS, OUTPUT_OCTETS, SPECIFIC_UNITS, TIME, TOTAL_OCTETS = 412, 414, 417, 420, 421
REQUEST_NUMBER, REQUEST_TYPE, BALANCE_RESULT, COST_INFORMATION = 415, 416, 422, 423
CURRENCY_CODE, EXPONENT, FINAL_UNIT_INDICATION, GRANTED = 425, 429, 430, 431
RATING_GROUP, REQUESTED_ACTION, REQUESTED, SERVICE_IDENTIFIER = 432, 436, 437, 439
SUBSCRIPTION_ID, SUBSCRIPTION_DATA, SUBSCRIPTION_TYPE = 443, 444, 450
UNIT_VALUE, USED, VALUE_DIGITS, VALIDITY_TIME, FINAL_UNIT_ACTION = 445, 446, 447, 448, 449
SERVICES, SERVICE_CONTEXT_ID = 456, 461

# The least octets of data of each AVP that the profile knows, by its data format.
LEAST_OCTETS = {
    code: least
    for least, codes in [
        (0, [33, 411]),  # OctetString
        (0, [1, 50, SESSION_ID, PRODUCT_NAME, 281, 424, SUBSCRIPTION_DATA, SERVICE_CONTEXT_ID]),  # UTF8String
        (0, [ORIGIN_HOST, 280, 282, DESTINATION_REALM, 293, ORIGIN_REALM]),  # DiameterIdentity
        (0, [VENDOR_SPECIFIC_APPLICATION_ID, FAILED_AVP, PROXY_INFO, COST_INFORMATION, FINAL_UNIT_INDICATION, GRANTED]),  # Grouped
        (0, [REQUESTED, 440, SUBSCRIPTION_ID, UNIT_VALUE, USED, SERVICES, 458]),  # Grouped
        (6, [HOST_IP_ADDRESS]),  # Address, as of IPv4
        (4, [55]),  # Time
        (4, [AUTH_APPLICATION_ID, 259, 265, VENDOR_ID, 267, RESULT_CODE, 278, INBAND_SECURITY_ID]),  # Unsigned32
        (4, [REQUEST_NUMBER, TIME, CURRENCY_CODE, RATING_GROUP, SERVICE_IDENTIFIER, VALIDITY_TIME]),  # Unsigned32
        (8, [INPUT_OCTETS, OUTPUT_OCTETS, SPECIFIC_UNITS, 419, TOTAL_OCTETS]),  # Unsigned64
        (4, [EXPONENT]),  # Integer32
        (8, [VALUE_DIGITS]),  # Integer64
        (4, [DISCONNECT_CAUSE, 295, REQUEST_TYPE, 418, BALANCE_RESULT, REQUESTED_ACTION]),  # Enumerated
        (4, [FINAL_UNIT_ACTION, SUBSCRIPTION_TYPE, 452, 455]),  # Enumerated
    ]
    for code in codes
}


class Avp(NamedTuple):
    code: int
    flags: int
    data: bytes

    def number(self):
        return int.from_bytes(self.data, "big")


class Header(NamedTuple):
    flags: int
    command: int
    application: int
    hop_by_hop: int
    end_to_end: int


class BadHeader(Exception):
    """A message with another version or a wrong length: its connection closes without an answer."""


class BadLayout(Exception):
    """Octets that spell no list of AVPs: what the AVP that stands for the broken one in a Failed-AVP has."""

    def __init__(self, code, flags, data=b"", is_short=False):
        super().__init__(code)
        self.code, self.flags, self.data, self.is_short = code, flags, data, is_short


def read_header(message):
    if len(message) < 4 or message[0] != 1:
        raise BadHeader
    length = int.from_bytes(message[1:4], "big")
    if length > MOST_OCTETS or length < HEADER_OCTETS or length % 4 or length != len(message):
        raise BadHeader
    return Header(message[4], int.from_bytes(message[5:8], "big"), *struct.unpack_from(">III", message, 8))


def read_list(octets):
    """The AVPs that the octets spell, without those of vendors."""
    avps, at, end = [], 0, len(octets)
    while at < end:
        if end - at < 8:
            code = int.from_bytes(octets[at : at + 4], "big") if end - at >= 4 else 0
            raise BadLayout(code, MANDATORY, is_short=True)
        code, flags_and_length = struct.unpack_from(">II", octets, at)
        flags, length = flags_and_length >> 24, flags_and_length & 0xFFFFFF
        if length < (12 if flags & VENDOR else 8) or length > end - at:
            # Of a vendor's AVP nothing but its code and its other flags can be shown.
            least = 0 if flags & VENDOR else LEAST_OCTETS.get(code, 0)
            raise BadLayout(code, flags & ~VENDOR, bytes(least))
        if not flags & VENDOR:
            avps.append(Avp(code, flags, octets[at + 8 : at + length]))
        at += length + -length % 4
    return avps


def spell(code, data, flags=MANDATORY):
    """An AVP with zero padding."""
    return struct.pack(">II", code, flags << 24 | 8 + len(data)) + data + bytes(-len(data) % 4)


def spell_number(code, value):
    """An AVP of four octets."""
    return struct.pack(">III", code, MANDATORY << 24 | 12, value % 2**32)


def spell_long(code, value):
    """An AVP of eight octets."""
    return struct.pack(">IIQ", code, MANDATORY << 24 | 16, value)


def spell_message(header, flags, avps):
    """A message under the identifiers of the header."""
    return (
        struct.pack(">II", 1 << 24 | HEADER_OCTETS + len(avps), flags << 24 | header.command)
        + struct.pack(">III", header.application, header.hop_by_hop, header.end_to_end)
        + avps
    )
