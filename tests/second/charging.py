"""Accounts: what a request comes to (RFC 8506, sections 5 and 6), by escrow (O'Neil, ACM TODS 11(4), 1986).

An account keeps its funds, its sessions with their live grants, and the outcome of each request for its repeats. What is free is added up
anew whenever it is asked for.
"""

from typing import NamedTuple

from plans import Service, Tariff
from refusals import EVENT, TERMINATION, UPDATE

SUCCESS, CREDIT_LIMIT_REACHED, UNKNOWN_SESSION, RESOURCES_EXCEEDED = 2001, 4012, 5002, 5006
UNABLE_TO_COMPLY, USER_UNKNOWN, RATING_FAILED = 5012, 5030, 5031
DIRECT_DEBITING, REFUND, CHECK_BALANCE, PRICE_ENQUIRY = range(4)
MOST_FUNDS = 10**18
MOST_SESSIONS = 1024
TOP_UP, DEBIT, REPAYMENT, CHARGE = 1, 2, 3, 4


class Grant(NamedTuple):
    """The units that were granted, what is reserved for them, and at which tariff."""

    units: int
    price: int
    tariff: Tariff


class ServiceOutcome(NamedTuple):
    service: Service
    result: int
    granted: int | None = None
    is_final: bool = False


class Outcome(NamedTuple):
    """What a request came to; a request that is refused as a whole has no services here."""

    result: int
    services: list = []
    price: int | None = None
    is_enough: bool | None = None


class Entry(NamedTuple):
    """A change of the funds: what it stands for, and the units that were charged or given back."""

    kind: int
    group: int | None
    units: int
    amount: int


class Session:
    def __init__(self, deadline):
        self.deadline, self.live = deadline, {}


class Account:
    def __init__(self, plan):
        self.plan, self.funds, self.overrun = plan, 0, 0
        self.tickets, self.kept, self.entries = {}, {}, []
        self.open, self.names = {}, set()

    def free(self):
        """What no live grant has reserved."""
        return self.funds - sum(grant.price for session in self.open.values() for grant in session.live.values())

    def book(self, kind, group, units, amount):
        """Changes the funds, by an entry."""
        self.funds += amount
        self.entries.append(Entry(kind, group, units, amount))

    def top_up(self, ticket, amount):
        """Whether the amount was added, now or when its ticket came first."""
        if ticket not in self.tickets:
            self.tickets[ticket] = self.funds + amount <= MOST_FUNDS
            if self.tickets[ticket]:
                self.book(TOP_UP, None, 0, amount)
        return self.tickets[ticket]

    def expire(self, moment):
        for name in [name for name, session in self.open.items() if session.deadline <= moment]:
            del self.open[name]

    def answer(self, request, moment, most_sessions):
        """The outcome of a request that wasn't made before, judged by this limit of open sessions."""
        services = [self.plan.service(asked, request.kind == EVENT, moment) for asked in request.services]
        if request.kind == EVENT:
            return self.event(request.action, services[0])
        if request.kind in (UPDATE, TERMINATION):
            return self.go_on(request, services, moment)
        return self.begin(request, services, moment, most_sessions)

    def begin(self, request, services, moment, most_sessions):
        """An initial request, whose reports aren't looked at."""
        if request.session in self.names:
            return Outcome(UNABLE_TO_COMPLY)
        if len(self.open) >= most_sessions:
            return Outcome(RESOURCES_EXCEEDED)
        session = self.open[request.session] = Session(moment + self.plan.hold)
        outcomes = [self.grant(session, service) for service in services]
        result = command_result(request, outcomes)
        if result == SUCCESS:
            self.names.add(request.session)
        else:
            del self.open[request.session]
        return Outcome(result, outcomes)

    def go_on(self, request, services, moment):
        """An update or a termination."""
        session = self.open.get(request.session)
        if session is None:
            return Outcome(UNKNOWN_SESSION)
        # A report is charged at the tariff of what was granted, or else of the moment.
        tariffs = [session.live[it.key()].tariff if it.key() in session.live else it.tariff for it in services]
        charges = [(it, tariff.price_of(it.used)) for it, tariff in zip(services, tariffs) if it.used is not None and tariff]
        if self.funds - sum(price for _, price in charges) < -MOST_FUNDS:
            return Outcome(UNABLE_TO_COMPLY)
        for service, price in charges:
            reserved = session.live[service.key()].price if service.key() in session.live else 0
            self.overrun += max(price - reserved, 0)
            self.book(CHARGE, service.asked.group, service.used, -price)
        for service in services:
            if service.used is not None or service.requested is not None:
                session.live.pop(service.key(), None)
        outcomes = []
        for service, tariff in zip(services, tariffs):
            if service.used is not None and tariff is None:
                outcomes.append(ServiceOutcome(service, RATING_FAILED))
            elif request.kind == TERMINATION:
                outcomes.append(ServiceOutcome(service, SUCCESS))
            else:
                outcomes.append(self.grant(session, service))
        result = command_result(request, outcomes)
        session.deadline = moment + self.plan.hold
        if request.kind == TERMINATION or result != SUCCESS:
            del self.open[request.session]
        return Outcome(result, outcomes)

    def grant(self, session, service):
        """What is granted of what is asked, and reserved: as much as is free."""
        if service.requested is None:
            return ServiceOutcome(service, SUCCESS)
        if service.tariff is None:
            return ServiceOutcome(service, RATING_FAILED)
        units = service.tariff.most_units(service.requested, self.free())
        if units == 0:
            return ServiceOutcome(service, CREDIT_LIMIT_REACHED)
        session.live[service.key()] = Grant(units, service.tariff.price_of(units), service.tariff)
        return ServiceOutcome(service, SUCCESS, units, units < service.requested)

    def event(self, action, service):
        """A one-time event, whose reports aren't looked at."""
        if service.tariff is None:
            return Outcome(RATING_FAILED, [ServiceOutcome(service, RATING_FAILED)])
        price = service.tariff.price_of(service.requested)
        is_covered = price == 0 or price <= self.free()
        result, granted = SUCCESS, None
        if action == DIRECT_DEBITING:
            result, granted = (SUCCESS, service.requested) if is_covered else (CREDIT_LIMIT_REACHED, None)
            if is_covered:
                self.book(DEBIT, service.asked.group, service.requested, -price)
        elif action == REFUND:
            result = SUCCESS if self.funds + price <= MOST_FUNDS else UNABLE_TO_COMPLY
            if result == SUCCESS:
                self.book(REPAYMENT, service.asked.group, service.requested, price)
        return Outcome(
            result,
            [ServiceOutcome(service, result, granted)],
            price if action == PRICE_ENQUIRY else None,
            is_covered if action == CHECK_BALANCE else None,
        )


def command_result(request, outcomes):
    """A service in single form answers for its request."""
    return SUCCESS if request.is_multi or not outcomes else outcomes[0].result
