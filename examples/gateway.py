#!/usr/bin/env python3
"""A gateway in a few lines: it opens a session for a subscriber, reports what was used and asks for more, and ends it.

    ./dcc topup examples/plan.toml DIR 0:491700000001 1 1000 1748736000 --explain
    ./dcc serve examples/plan.toml DIR --explain &
    examples/gateway.py [HOST [PORT]]

If the server does not listen yet, the gateway tries again for 20 seconds. It prints of each answer its Result-Code and the octets that are granted
(RFC 6733; RFC 8506).
"""

import argparse
import os
import socket
import sys
import time

CCR, CER, DPR = 272, 257, 282
RESULT_CODE, CC_TOTAL_OCTETS = 268, 421
# The seconds for which a server that does not listen yet is waited for.
PATIENCE = 20


def avp(code, data):
    """An AVP with the M bit, of a number, a text, octets, or a list of AVPs (RFC 6733, section 4.1)."""
    if isinstance(data, list):
        data = b"".join(data)
    elif isinstance(data, str):
        data = data.encode()
    elif isinstance(data, int):
        data = data.to_bytes(8 if code == CC_TOTAL_OCTETS else 4, "big")
    head = code.to_bytes(4, "big") + b"\x40" + (8 + len(data)).to_bytes(3, "big")
    return head + data + bytes(-len(data) % 4)


def request(command, application, *avps):
    """A request (RFC 6733, section 3)."""
    body = b"".join(avps)
    flags = 0xC0 if application else 0x80
    return (b"\x01" + (20 + len(body)).to_bytes(3, "big") + bytes([flags]) + command.to_bytes(3, "big")
            + application.to_bytes(4, "big") + os.urandom(8) + body)


def found(octets, wanted):
    """The first AVP of this code, in groups too: its data as a number, or None."""
    while len(octets) >= 8:
        code, flags, length = int.from_bytes(octets[:4], "big"), octets[4], int.from_bytes(octets[5:8], "big")
        data = octets[12 if flags & 0x80 else 8:length]
        if code == wanted:
            return int.from_bytes(data, "big")
        inner = found(data, wanted) if code in (431, 456) else None
        if inner is not None:
            return inner
        octets = octets[length + -length % 4:]
    return None


def ask(connection, name, octets):
    """Sends a request and prints what its answer says."""
    connection.sendall(octets)
    head = connection.recv(4, socket.MSG_WAITALL)
    if not head:
        sys.exit(f"gateway.py: {name}: the server closed the connection")
    body = connection.recv(int.from_bytes(head[1:], "big") - 4, socket.MSG_WAITALL)
    granted = found(body[16:], CC_TOTAL_OCTETS)
    print(f"{name}: {found(body[16:], RESULT_CODE)}" + (f", granted {granted} octets" if granted is not None else ""))


def connected():
    """The connection to the server that the arguments name."""
    parser = argparse.ArgumentParser(description=__doc__.splitlines()[0])
    parser.add_argument("host", metavar="HOST", nargs="?", default="127.0.0.1", help="by default 127.0.0.1")
    parser.add_argument("port", metavar="PORT", nargs="?", type=int, default=3868, help="by default 3868")
    named = parser.parse_args()
    end = time.monotonic() + PATIENCE
    while True:
        try:
            connection = socket.create_connection((named.host, named.port), PATIENCE)
            connection.settimeout(None)
            return connection
        except ConnectionRefusedError:
            if time.monotonic() >= end:
                sys.exit(f"gateway.py: no server listens on {named.host}:{named.port}; tried for {PATIENCE} seconds")
            time.sleep(0.1)
        except OSError as reason:
            sys.exit(f"gateway.py: no server at {named.host}:{named.port}: {reason.strerror or reason}")


def main():
    origin = [avp(264, "gw1.example"), avp(296, "example")]
    subscriber = avp(443, [avp(450, 0), avp(444, "491700000001")])
    session = f"gw1.example;{int(time.time())};1"

    def charge(kind, number, *service):
        return request(CCR, 4, avp(263, session), *origin, avp(283, "example"), avp(258, 4), avp(461, "data@example"), avp(416, kind),
                       avp(415, number), subscriber, *([avp(456, [avp(432, 10), *service])] if service else []))

    asked = avp(437, [avp(CC_TOTAL_OCTETS, 10_000)])
    with connected() as connection:
        ask(connection, "capabilities", request(CER, 0, *origin, avp(257, b"\x00\x01\x7f\x00\x00\x01"), avp(266, 0), avp(269, "gateway"),
                                                avp(258, 4)))
        ask(connection, "session opened", charge(1, 0, asked))
        ask(connection, "4,000 used", charge(2, 1, asked, avp(446, [avp(CC_TOTAL_OCTETS, 4_000)])))
        ask(connection, "session ended, 2,000 used", charge(3, 2, avp(446, [avp(CC_TOTAL_OCTETS, 2_000)])))
        ask(connection, "disconnection", request(DPR, 0, *origin, avp(273, 0)))


if __name__ == "__main__":
    main()
