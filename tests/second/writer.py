"""A script that is written line by line, while a judge says what is printed of each."""

from charging import CHECK_BALANCE
from judge import Judge, read_event
from messages import *
from plans import MOST_TIME, Plan
from refusals import MOST_UNITS


class Writer:
    def __init__(self, plan_text):
        self.plan_text = plan_text
        self.judge = self.make_judge(Plan(plan_text))
        self.lines, self.printed = [], []
        self.looks = 0

    def make_judge(self, plan):
        return Judge(plan)

    def say(self, line):
        self.lines.append(line)
        self.printed += self.judge.take(read_event(*line.encode().split(b" ")))

    def send(self, message, peer, moment):
        """A message, or its octets."""
        octets = message.octets() if isinstance(message, Message) else message
        self.say(f"message {peer} {moment} {octets.hex()}")

    def look(self, moment, rating_groups):
        """Balance checks of each account: it covers what it should, and not one more."""
        plan = self.judge.plan
        for subscriber, account in self.judge.accounts.items():
            for rating_group in rating_groups:
                unit, tariff = plan.units[rating_group], plan.tariff(rating_group, moment)
                if tariff is None or tariff.price == 0:
                    continue
                covered = max(account.free(), 0) // tariff.price * tariff.block
                for amount in {min(covered, MOST_UNITS), min(covered + 1, MOST_UNITS)}:
                    if unit != "time" or amount <= MOST_TIME:
                        service = group(SERVICES, number(RATING_GROUP, rating_group), units_of(REQUESTED, unit, amount))
                        self.looks += 1
                        self.send(event(subscriber, b"look", self.looks, CHECK_BALANCE, service), 1, moment)

    def script(self):
        return "".join(f"{line}\n" for line in self.lines).encode()

    def expected(self):
        """What a replay prints, tells on standard error, and ends with."""
        return "".join(f"{line}\n" for line in self.printed), "", 0
