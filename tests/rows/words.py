"""Words that stand for the octets of Diameter messages, spelled by the layouts of RFC 6733 (sections 3 and 4.1) and RFC 8506.

Nothing here is shared with the server: what it is to answer is laid out a second time, from the words of a row.

A message is one of these words, with its AVPs joined by '+':

    ccr/TYPE/NUMBER/AVPS          a credit-control request under the Session-Id gw1.example;1;1
    cca/CODE/TYPE/NUMBER/AVPS     its answer with this Result-Code
    ccs/SESSION/TYPE/NUMBER/AVPS  a request under another Session-Id, in hex
    cas/SESSION/CODE/TYPE/NUMBER/AVPS    its answer
    cer/AVPS, cea/CODE/AVPS       a capabilities exchange
    dwr, dwa                      a watchdog request and its answer
    debit/NUMBER/OCTETS           a direct debit of so many octets, without services
    raw/HEADER/AVPS               a name of HEADERS, or flags, command, application and identifiers in hex; the length is put in

An AVP is eight octets or more in hex, or any with an x in front, a name of NAMES, an AVP of the dictionary by its name, as Rating-Group=10,
Session-Id='x', Session-Id=x78, Session-Id=xff*255 or Failed-AVP{Rating-Group}; without a value it has the least data in zeros, Session-Id/00
has other flags, and Session-Id:7='x' another length than its own. N*WORD is N times the word. A service has short forms:

    10a1000      of group 10, asks for 1,000 units          10u500a1000   reports 500 and asks for 1,000
    10n7,9a1000  with the identifiers 7 and 9               xa1000        without a group      a1000   at the message's level
    10g1000      is granted 1,000                           10f1000       the last units       10r4012 is granted nothing, by this result
    g1000        granted at the message's level
"""

import functools
import re

# What a server says of its opening on standard error.
OPENING = r"^dcc: (shard \d+: subscribers \d+, acts \d+|the stores (are open after \d+\.\d{3}|have been opening for \d+) seconds)\n"

U32, U64, I32, I64, TEXT, GROUP, ADDRESS, TIME = "u32", "u64", "i32", "i64", "text", "group", "address", "time"

# Code and format of each AVP that the server knows (RFC 6733, section 4.5; RFC 8506, section 8).
DICTIONARY = {
    "User-Name": (1, TEXT), "Proxy-State": (33, TEXT), "Acct-Multi-Session-Id": (50, TEXT), "Event-Timestamp": (55, TIME),
    "Host-IP-Address": (257, ADDRESS), "Auth-Application-Id": (258, U32), "Acct-Application-Id": (259, U32),
    "Vendor-Specific-Application-Id": (260, GROUP), "Session-Id": (263, TEXT), "Origin-Host": (264, TEXT),
    "Supported-Vendor-Id": (265, U32), "Vendor-Id": (266, U32), "Firmware-Revision": (267, U32), "Result-Code": (268, U32),
    "Product-Name": (269, TEXT), "Disconnect-Cause": (273, U32), "Origin-State-Id": (278, U32), "Failed-AVP": (279, GROUP),
    "Proxy-Host": (280, TEXT), "Error-Message": (281, TEXT), "Route-Record": (282, TEXT), "Destination-Realm": (283, TEXT),
    "Proxy-Info": (284, GROUP), "Destination-Host": (293, TEXT), "Termination-Cause": (295, U32), "Origin-Realm": (296, TEXT),
    "Inband-Security-Id": (299, U32), "CC-Correlation-Id": (411, TEXT), "CC-Input-Octets": (412, U64), "CC-Money": (413, GROUP),
    "CC-Output-Octets": (414, U64), "CC-Request-Number": (415, U32), "CC-Request-Type": (416, U32),
    "CC-Service-Specific-Units": (417, U64), "CC-Session-Failover": (418, U32), "CC-Sub-Session-Id": (419, U64), "CC-Time": (420, U32),
    "CC-Total-Octets": (421, U64), "Check-Balance-Result": (422, U32), "Cost-Information": (423, GROUP), "Cost-Unit": (424, TEXT),
    "Currency-Code": (425, U32), "Exponent": (429, I32), "Final-Unit-Indication": (430, GROUP), "Granted-Service-Unit": (431, GROUP),
    "Rating-Group": (432, U32), "Requested-Action": (436, U32), "Requested-Service-Unit": (437, GROUP),
    "Service-Identifier": (439, U32), "Service-Parameter-Info": (440, GROUP), "Subscription-Id": (443, GROUP),
    "Subscription-Id-Data": (444, TEXT), "Unit-Value": (445, GROUP), "Used-Service-Unit": (446, GROUP), "Value-Digits": (447, I64),
    "Validity-Time": (448, U32), "Final-Unit-Action": (449, U32), "Subscription-Id-Type": (450, U32), "Tariff-Change-Usage": (452, U32),
    "Multiple-Services-Indicator": (455, U32), "Multiple-Services-Credit-Control": (456, GROUP), "User-Equipment-Info": (458, GROUP),
    "Service-Context-Id": (461, TEXT),
}
SIZES = {U32: 4, I32: 4, U64: 8, I64: 8, TIME: 4, ADDRESS: 6, TEXT: 0, GROUP: 0}

# What services count, by their group in the plan of the rows; any other counts units.
COUNTED = {"10": "CC-Total-Octets", "40": "CC-Total-Octets", "20": "CC-Time", "": "CC-Total-Octets", "x": "CC-Total-Octets"}

# Header fields behind the length: flags, command, application, identifiers.
HEADERS = {
    "ccr": "c0000110000000040000001100000021", "cca": "40000110000000040000001100000021",
    "cer": "80000101000000000000000300000004", "cea": "00000101000000000000000300000004",
    "dwr": "80000118000000000000000100000002", "dwa": "00000118000000000000000100000002",
    "dpr": "8000011a000000000000000500000006", "dpa": "0000011a000000000000000500000006",
}

NAMES = {
    "session": "Session-Id='gw1.example;1;1'",
    "gateway": "Origin-Host='gw1.example'+Origin-Realm='example'",
    "server": "Origin-Host='ocs.example'+Origin-Realm='example'",
    "app": "Auth-Application-Id=4",
    "context": "Service-Context-Id='data@example'",
    "asks": "gateway+Destination-Realm='example'+app+context",
    "capabilities": "gateway+Host-IP-Address=x00017f000001+Vendor-Id=0+Product-Name='gw'",
    "own": "Host-IP-Address=x00017f000001+Vendor-Id=0+Product-Name='dcc'+app",
    "proxy": "Proxy-Info{Proxy-Host='relay.ex'+Proxy-State=x01020304}",
    "debit": "Requested-Action=0", "refund": "Requested-Action=1", "check": "Requested-Action=2", "enquiry": "Requested-Action=3",
    "sub": "Subscription-Id{Subscription-Id-Type=0+Subscription-Id-Data='491700000001'}",
    "other": "Subscription-Id{Subscription-Id-Type=0+Subscription-Id-Data='491700000003'}",
    "third": "Subscription-Id{Subscription-Id-Type=0+Subscription-Id-Data='491700000002'}",
    "nobody": "Failed-AVP{Subscription-Id}",
    "final": "Final-Unit-Indication{Final-Unit-Action=0}",
    "valid": "Validity-Time=600",
    "thirtytwo": "+".join(f"Multiple-Services-Credit-Control{{Rating-Group={group}}}" for group in range(1, 33)),
}
SERVICE = re.compile(r"(?P<group>\d+|x)?(?:n(?P<ids>[\d,]+))?(?:u(?P<used>\d+))?(?:a(?P<asked>\d+))?")
TOLD = re.compile(r"(?P<group>\d+|x)?(?:n(?P<ids>[\d,]+))?(?P<what>[gfr])(?P<amount>\d+)")


def avp(code, flags, data, told=None):
    """An AVP of this code, these flags and this data in hex: its header, with the length that is told, the data, and zeros up to four octets."""
    length = 8 + len(data) // 2
    return f"{code:08x}{flags:02x}{length if told is None else int(told):06x}{data}" + "00" * (-length % 4)


def parted(text):
    """The parts between the '+' that stand in no braces and no quotes."""
    parts, depth, quoted = [""], 0, False
    for letter in text:
        quoted ^= letter == "'"
        depth += (letter == "{") - (letter == "}") if not quoted else 0
        if letter == "+" and not depth and not quoted:
            parts.append("")
        else:
            parts[-1] += letter
    return [part for part in parts if part]


def known(word):
    """An AVP of the dictionary by its name, or None."""
    found = re.fullmatch(r"([A-Z][A-Za-z-]*)(?:/([0-9a-f]{2}))?(?::(\d+))?(?:=(.*)|(\{.*\}))?", word, re.S)
    if not found or found[1] not in DICTIONARY:
        return None
    name, flags, told, value, group = found.groups()
    code, kind = DICTIONARY[name]
    flags = int(flags, 16) if flags else 0 if name == "Product-Name" else 0x40
    if group:
        data = avps(group[1:-1])
    elif not value:
        data = "00" * SIZES[kind]
    elif value[0] == "x":
        octets, _, times = value[1:].partition("*")
        data = octets * int(times or 1)
    elif value[0] == "'":
        data = value[1:-1].encode().hex()
    else:
        data = int(value).to_bytes(SIZES[kind], "big", signed=int(value) < 0).hex()
    return avp(code, flags, data, told)


def units(name, amount, group):
    """A group of units, of what the services of this group count."""
    return f"{name}{{{COUNTED.get(group or '', 'CC-Service-Specific-Units')}={amount}}}"


def service(word):
    """A service in short, asked for or told, or None."""
    asks, told = SERVICE.fullmatch(word), TOLD.fullmatch(word)
    if not word or not asks and not told:
        return None
    found = (asks or told).groupdict()
    group, ids = found["group"], [it for it in (found["ids"] or "").split(",") if it]
    named = [f"Service-Identifier={it}" for it in ids]
    named += [f"Rating-Group={group}"] if group and group != "x" else []
    if asks:
        named += [units("Requested-Service-Unit", found["asked"], group)] if found["asked"] else []
        named += [units("Used-Service-Unit", found["used"], group)] if found["used"] else []
    elif found["what"] == "r":
        named += [f"Result-Code={found['amount']}"]
    else:
        granted = units("Granted-Service-Unit", found["amount"], group)
        named = [granted, *named, *(["valid", "Result-Code=2001"] if group else [])]
        named += ["final"] if found["what"] == "f" else []
    return avps("Multiple-Services-Credit-Control{" + "+".join(named) + "}" if group else "+".join(named))


@functools.cache
def named(word):
    """The octets of the AVPs of a name, which stand in many messages."""
    return avps(NAMES[word])


def avps(text):
    """The octets of AVPs."""
    octets = ""
    for word in parted(text):
        times = re.fullmatch(r"(\d+)\*(.+)", word, re.S)
        if times:
            octets += avps(times[2]) * int(times[1])
        elif word in NAMES:
            octets += named(word)
        elif re.fullmatch(r"x?(?:[0-9a-f]{2})+", word) and (word[0] == "x" or len(word) >= 16):
            octets += word.removeprefix("x")
        else:
            found = known(word) or service(word)
            if found is None:
                raise ValueError(f"no AVP: {word}")
            octets += found
    return octets


def message(header, text):
    """A message of this header, behind its length, and of these AVPs."""
    body = avps(text)
    return f"01{20 + len(body) // 2:06x}{HEADERS.get(header, header)}{body}"


def spelled(word):
    """The octets of the message that a word stands for, in hex, or the word."""
    kind, _, rest = word.partition("/")
    parts = rest.split("/")
    tail = lambda front: "/".join(parts[front:])
    if kind == "dwr":
        return message("dwr", "gateway")
    if kind == "dwa":
        return message("dwa", "Result-Code=2001+server")
    if kind == "cer":
        return message("cer", f"capabilities+{rest}")
    if kind == "cea":
        return message("cea", f"Result-Code={parts[0]}+server+own+{tail(1)}")
    if kind == "debit" and len(parts) == 2:
        return spelled(f"ccr/4/{parts[0]}/debit+sub+a{parts[1]}")
    if kind == "raw":
        return message(parts[0], tail(1))
    if kind == "ccr":
        return message("ccr", f"session+asks+{numbered(parts[0], parts[1])}+{tail(2)}")
    if kind == "ccs":
        return message("ccr", f"Session-Id=x{parts[0]}+asks+{numbered(parts[1], parts[2])}+{tail(3)}")
    if kind == "cca":
        return message("cca", f"session+Result-Code={parts[0]}+server+app+{numbered(parts[1], parts[2])}+{tail(3)}")
    if kind == "cas":
        return message("cca", f"Session-Id=x{parts[0]}+Result-Code={parts[1]}+server+app+{numbered(parts[2], parts[3])}+{tail(4)}")
    return word


def numbered(kind, number):
    """The type and the number of a request."""
    return f"CC-Request-Type={kind}+CC-Request-Number={number}"


def behind_opening(said):
    """What a server says, but for the lines of its opening, which `opening` of tests/gateways judges."""
    return re.sub(OPENING, "", said, flags=re.M)
