"""A script of as many lines as are wanted, in ten turns: debits of one account and their repeats, sessions whose updates name nobody, top-ups, and
accounts without end.
"""

from charging import DIRECT_DEBITING
from hostile import INITIAL, NOW, SUBSCRIBER, Hostile, asks, reports
from messages import *
from refusals import TERMINATION, UPDATE, WATCHDOG

MARK = b"#########"
NEWCOMER = 4, MARK

# Each is spelled once, and then only what stands at its marks is another.
DEBIT = event(SUBSCRIBER, MARK, 0, DIRECT_DEBITING, units_of(REQUESTED, "octets", 1001)).octets()
BEGIN = credit_control(SUBSCRIBER, MARK, 1, INITIAL, asks(10, 1000)).octets()
GO_ON = credit_control(None, MARK, 2, UPDATE, reports(10, 999)).octets()
END = credit_control(SUBSCRIBER, MARK, 3, TERMINATION).octets()
FIRST_DEBIT = event(NEWCOMER, b"x", 1, DIRECT_DEBITING).octets()
ALIVE = base_request(WATCHDOG).octets()


def write(count):
    writer = Hostile(10**18)
    for turn in range(count // 10):
        name = b"%09d" % turn
        for message in [DEBIT, DEBIT, BEGIN, GO_ON, END, ALIVE]:
            writer.put(message.replace(MARK, name))
        writer.say(f"topup {NOW} 0:491700000001 {turn + 2} 5")
        for _ in range(2):
            writer.say(f"topup {NOW} 4:{turn:09} 1 5")
        writer.put(FIRST_DEBIT.replace(MARK, name))
    return writer
