"""Gateways and operators of `dcc serve --stay` who come and go as a seed says: what they sent, when, and what came back.

The connection of a gateway has a door: a judge that says of each message what is answered at once, and which request is for the books.
"""

import contextlib
import itertools
import json
import os
import random
import re
import socket
import struct
import time
from collections import defaultdict, deque
from typing import NamedTuple
from urllib.parse import quote

import exposition
import serving
from judge import CLOSED, OPEN, Judge, read_event
from messages import base_request, capabilities, number
from plans import LAST_MOMENT, Plan
from refusals import DISCONNECT
from scripts import TEMPERS, Maker
from stores import read_rows, word_of
from wire import AUTH_APPLICATION_ID, DISCONNECT_CAUSE, HEADER_OCTETS, MOST_OCTETS

# The hosts of gateways, which are some of them the same.
HOSTS = {it: f"gw{it % 3}.example" for it in range(1, 8)} | {2**32 - 1: "GW1.example"}
# So many octets of answers are read at once, and so many events the guess of the clock takes for a second.
PIECE, EVENTS_A_SECOND = 65_536, 500
# How often an epoch has which temper, and how many subscribers a server has beside those of all scripts.
TEMPERS_BY_EPOCH = {"mixed": 6, "sessions": 5, "events": 3, "faults": 2, "peers": 2, "bounds": 2, "crowd": 1}
MORE_SUBSCRIBERS = [0, 20, 70]
EVENTS_OF_EPOCH = [50, 100, 200, 300]
# How a server sweeps by itself, or not at all.
NEVER, BY_TIME, BY_MESSAGES = "--sweep 0", "--sweep 1", "--sweep 0 --every 20"
# For so many seconds sessions are held; and so many microseconds more a call takes on a slow file.
HOLDS, SLOW = [1, 2, 4, 1_000_000], 500
# The ledgers of so many subscribers are also printed of the folder, which takes a process each.
LEDGERS = 8
# So often a ledger is looked at until its account stays as it is.
MOST_LOOKS = 5


class ServedMaker(Maker):
    """A maker of what gateways and operators ask of a server whose clock goes on. It guesses how things stand, as if each came behind the other."""

    hosts = HOSTS

    def __init__(self, seed, shards, begun, holds):
        self.shards, self.begun, self.holds = shards, begun, holds
        self.turns = [begun - 3600, begun, begun + 3, begun + 8, LAST_MOMENT]
        super().__init__(seed)
        self.subscribers += [(0, b"4917001%05d" % it) for it in range(self.dice.choice(MORE_SUBSCRIBERS))]

    def make_plan(self):
        return re.sub(rb"(?m)^shards = \d$", b"shards = %d" % self.shards, super().make_plan())

    def peer_number(self):
        return self.dice.choice(list(self.hosts))

    def step(self):
        self.now = self.begun + len(self.lines) // EVENTS_A_SECOND
        return self.now

    def sweep(self):
        self.say(f"sweep {self.step()}")

    def epoch(self, count):
        """About so many events more, by a temper."""
        before = len(self.lines)
        self.temper = self.dice.choices(list(TEMPERS_BY_EPOCH), TEMPERS_BY_EPOCH.values())[0]
        weights = TEMPERS[self.temper]
        # A crowd is a thousand requests.
        self.go_on(weights, count if self.temper != "crowd" else 15)
        return [read_event(*line.encode().split(b" ")) for line in self.lines[before:]]


class Door(Judge):
    """A judge of the messages of one connection, but for what rests on accounts: of a request it notes who asks what."""

    def __init__(self, plan):
        super().__init__(plan)
        self.asked = None
        self.connect(0)

    def credit_control(self, request, host, moment):
        self.asked = request, host
        return b""


class Frame:
    """A message that was sent whole over an open connection: when, what is answered to it but for what rests on accounts, the request in it if it is
    one, the host of its peer, and what came back, and when.
    """

    def __init__(self, octets, sent, answer, request, host):
        self.octets, self.sent, self.answer, self.request, self.host = octets, sent, answer, request, host
        self.told, self.at = None, None


class Visit:
    """A connection of a gateway: its frames, and what came back that answers none.

    All frames have to be answered if it is whole. It is overrun if octets went out behind the message that closes it: then the system may reset it, and
    answers are lost. It is late if an answer did not come in time, and dropped if it ended without a reason.
    """

    def __init__(self, port, plan):
        self.frames, self.strays, self.flying = [], [], defaultdict(deque)
        self.door, self.buffer, self.got = Door(plan), b"", b""
        self.owed, self.is_whole, self.is_ended, self.is_late, self.is_overrun = 0, False, False, False, False
        self.is_leaving, self.is_dropped = False, False
        self.socket = socket.create_connection(("127.0.0.1", port), timeout=serving.ANSWER_SECONDS)
        self.socket.setsockopt(socket.IPPROTO_TCP, socket.TCP_NODELAY, 1)

    @property
    def is_closed(self):
        """Whether a message has closed it."""
        return self.door.peers[0] == CLOSED

    @property
    def is_orderly(self):
        """Whether it ended so that nothing that came back was cut."""
        return self.is_whole or self.is_closed and not self.is_overrun

    def note(self, octets):
        """Octets that are about to be sent, and the frames that end in them."""
        self.is_overrun = self.is_overrun or self.is_closed
        self.buffer += octets
        sent = time.time()
        while not self.is_closed and len(self.buffer) >= 4:
            length = int.from_bytes(self.buffer[1:4], "big")
            if length < HEADER_OCTETS or length % 4 or length > MOST_OCTETS:
                self.door.peers[0] = CLOSED
                self.is_overrun = self.is_overrun or len(self.buffer) > 4
            elif len(self.buffer) < length:
                break
            else:
                self.take(self.buffer[:length], sent)
                self.buffer = self.buffer[length:]
                self.is_overrun = self.is_overrun or self.is_closed and bool(self.buffer)

    def take(self, octets, sent):
        """The next message of an open connection."""
        self.door.asked = None
        answer, closes = self.door.reply(0, self.door.peers[0], 0, octets)
        self.door.peers[0] = CLOSED if closes else OPEN
        request, host = self.door.asked or (None, None)
        frame = Frame(octets, sent, answer, request, host)
        self.frames.append(frame)
        if answer:
            self.flying[octets[12:16]].append(frame)
            self.owed += 1

    def send(self, octets, cut=None):
        """Sends octets in one piece, or in two with a pause between them."""
        self.note(octets)
        with contextlib.suppress(OSError):
            self.socket.sendall(octets[:cut])
            if cut is not None:
                time.sleep(0.01)
                self.socket.sendall(octets[cut:])

    def receive(self):
        """Waits for octets of answers."""
        try:
            piece = self.socket.recv(PIECE)
        except TimeoutError:
            self.is_late, piece = True, b""
        except OSError:
            piece = b""
        at = time.time()
        self.is_ended = not piece
        self.is_dropped = self.is_ended and not self.is_late and not self.is_leaving and not self.is_closed
        self.got += piece
        while len(self.got) >= 4 and len(self.got) >= (length := int.from_bytes(self.got[1:4], "big")) >= HEADER_OCTETS:
            told, self.got = self.got[:length], self.got[length:]
            frames = self.flying[told[12:16]]
            if frames:
                frame = frames.popleft()
                frame.told, frame.at = told, at
                self.owed -= 1
            else:
                self.strays.append(told)

    def settle(self, most=0):
        """Waits until so many answers are owed at most."""
        while self.owed > most and not self.is_ended:
            self.receive()

    def to_the_end(self):
        while not self.is_ended:
            self.receive()

    # The ways in which it ends.

    def closes(self):
        self.settle()
        self.is_whole = True

    def half_closes(self):
        self.is_leaving = True
        with contextlib.suppress(OSError):
            self.socket.shutdown(socket.SHUT_WR)
        self.to_the_end()
        self.is_whole = True

    def is_disconnected(self):
        self.settle()
        self.is_whole = True
        self.send(identified(base_request(DISCONNECT, number(DISCONNECT_CAUSE, 0)).octets()))
        self.to_the_end()

    def dies(self):
        """Without a farewell: what is on its way is lost."""
        self.socket.setsockopt(socket.SOL_SOCKET, socket.SO_LINGER, struct.pack("ii", 1, 0))

    def goes(self):
        """At once, with answers on their way."""

    def end(self, way):
        if self.is_closed:
            self.to_the_end()
        else:
            way(self)
        self.socket.close()
        self.socket = None


WAYS = [Visit.closes, Visit.half_closes, Visit.is_disconnected, Visit.dies, Visit.dies, Visit.goes]
# Those in which it ends behind a part of a message.
WAYS_OF_PART = [Visit.half_closes, Visit.dies, Visit.goes]
IDENTIFIERS = itertools.count(1)


def identified(octets):
    """The message under a Hop-by-Hop Identifier of its own."""
    return octets[:12] + next(IDENTIFIERS).to_bytes(4, "big") + octets[16:] if len(octets) >= 16 else octets


def opening(host):
    message = capabilities(number(AUTH_APPLICATION_ID, 4))
    message.trees[0].data = host
    return identified(message.octets())


class Gateway:
    """A gateway that comes and goes, and all its connections."""

    def __init__(self, world, peer):
        self.world, self.name = world, HOSTS[peer].encode()
        self.dice = random.Random(f"{world.seed} {world.shards} {peer}")
        self.host, self.visit, self.visits, self.again = self.name, None, [], 0

    def play(self, items):
        """What it does of an epoch: messages, and other words where it goes and comes back, at times under another host."""
        piece = []
        for form, *words in items:
            if form == b"message":
                piece.append(identified(words[2]))
                if len(piece) >= self.dice.choice([1, 2, 4, 8, 16, 64]):
                    piece = self.send(piece)
            else:
                while piece:
                    piece = self.send(piece)
                self.leave()
                self.host = words[1] if form == b"open" else self.name
        while piece:
            piece = self.send(piece)
        if self.visit:
            self.visit.settle()

    def come(self):
        self.visit = Visit(self.world.server.port, self.world.plan)
        self.visits.append(self.visit)
        # A message before the exchange ends the connection.
        return [opening(self.host)] if self.dice.random() < 0.97 else []

    def send(self, piece):
        """Sends messages, at times only a part of the last. What is left for the next connection: a message that was sent in part, and mostly those behind
        one that has closed this connection.
        """
        dice = self.dice
        octets, part = [] if self.visit else self.come(), None
        if dice.random() < 0.05:
            *piece, part = piece
        visit, sent = self.visit, 0
        for message in piece:
            if visit.is_closed and dice.random() < 0.9:
                break
            octets.append(message)
            sent += 1
            if octets and dice.random() < 0.5:
                self.put(octets)
                octets = []
        if octets:
            self.put(octets)
        if part and not visit.is_closed:
            visit.send(part[: dice.randrange(1, len(part))])
        if visit.is_closed:
            self.leave()
        elif visit.buffer:
            # A message whose length isn't its own would swallow the next ones.
            self.leave(dice.choice(WAYS_OF_PART))
        elif dice.random() < 0.03:
            self.leave()
        else:
            visit.settle(dice.choice([0, 0, 4, 16, 64]))
        return piece[sent:] + ([part] if part else [])

    def put(self, octets):
        whole = b"".join(octets)
        self.visit.send(whole, self.dice.randrange(len(whole)) if self.dice.random() < 0.02 else None)

    def leave(self, way=None):
        if self.visit:
            self.visit.end(way or self.dice.choice(WAYS))
        self.visit = None

    def ask_again(self):
        """Sends each request again that was not answered, from the host that it had."""
        unanswered = [frame for visit in self.visits for frame in visit.frames if frame.request and frame.told is None]
        for frame in sorted(unanswered, key=lambda frame: frame.host):
            self.again += 1
            if not self.visit or self.host != frame.host:
                self.leave(Visit.closes)
                self.host = frame.host
                self.come()
                self.visit.send(opening(self.host))
            self.visit.send(identified(frame.octets))
            self.visit.settle(16)
        self.leave(Visit.closes)


class TopUp(NamedTuple):
    """A top-up of an operator: when it was asked for, when it was answered, and the word."""

    subscriber: tuple
    ticket: int
    amount: int
    sent: float
    at: float
    told: str


class Sweep(NamedTuple):
    sent: float
    at: float
    answer: dict


class Look(NamedTuple):
    """An account as an operator saw it; nothing if it was unknown."""

    subscriber: tuple
    sent: float
    at: float
    answer: dict | None

    @property
    def acts(self):
        return self.answer["acts"] if self.answer else 0


class Ledger(NamedTuple):
    """The ledger of an account that had so many acts; nothing if it was unknown."""

    subscriber: tuple
    acts: int
    text: str | None


class Operator:
    def __init__(self, world):
        self.world, self.dice = world, random.Random(f"{world.seed} {world.shards} operator")
        self.top_ups, self.sweeps, self.looks, self.ledgers = [], [], [], []

    def play(self, items):
        lines = []
        for form, *words in items:
            if form == b"sweep":
                self.sweep()
            else:
                lines.append(words[1:])
                if self.dice.random() < 0.7:
                    self.top_up(lines)
                    lines = []
            if self.dice.random() < 0.3:
                self.look(self.dice.choice(self.world.maker.subscribers))
        self.top_up(lines)
        self.look(self.dice.choice(self.world.maker.subscribers))

    def top_up(self, lines):
        """One top-up by its own call, several by lines."""
        if not lines:
            return
        sent, server = time.time(), self.world.server
        if len(lines) == 1:
            [(subscriber, ticket, amount)] = lines
            _, answer = server.calls_json("POST", f"{path_of(subscriber)}/topups", json.dumps({"ticket": ticket, "amount": amount}))
            words = [answer.get("told", str(answer))]
        else:
            text = "".join(f"{word_of(subscriber)} {ticket} {amount}\n" for subscriber, ticket, amount in lines)
            words = server.call("POST", "/topups", text)[1].splitlines()
        at = time.time()
        self.top_ups += [TopUp(*line, sent, at, word) for line, word in itertools.zip_longest(lines, words, fillvalue=None)]

    def sweep(self):
        sent = time.time()
        answer = self.world.server.calls_json("POST", "/sweep")[1]
        self.sweeps.append(Sweep(sent, time.time(), answer))

    def look(self, subscriber):
        """How many acts an account has that is looked at."""
        sent = time.time()
        status, text = self.world.server.call("GET", path_of(subscriber))
        self.looks.append(Look(subscriber, sent, time.time(), json.loads(text) if status == 200 else None))
        return self.looks[-1].acts

    def look_at_ledger(self, subscriber):
        """A ledger has the acts that its account has before and behind it, once these are the same; a sweep may come between."""
        for _ in range(MOST_LOOKS):
            acts = self.look(subscriber)
            status, text = self.world.server.call("GET", f"{path_of(subscriber)}/ledger")
            if self.look(subscriber) == acts:
                self.ledgers.append(Ledger(subscriber, acts, text if status == 200 else None))
                return


def path_of(subscriber):
    return "/subscribers/" + quote(word_of(subscriber), safe=":")


class Seen(NamedTuple):
    """All that was seen of a server under a plan, which sweeps so by itself: the connections of gateways and what operators saw, its runs, the rows of its
    stores, ledgers that were printed of the folder, and how many requests were asked again.
    """

    plan_text: bytes
    sweeping: str
    visits: list
    top_ups: list
    sweeps: list
    looks: list
    ledgers: list
    runs: list
    stores: list
    printed: dict
    again: int


class Run(NamedTuple):
    """A run of a server: the moments of its beginning and its end, the numbers of its round, and its metrics at the end."""

    begun: float
    ended: float
    round: tuple
    metrics: dict


class World:
    """A server of so many shards under a plan of a seed, whose sessions are held for one of these times, and all who come to it. The library tests/stop.c
    makes the files of some servers slow, so that many requests wait together.
    """

    def __init__(self, seed, shards, room, stop, holds=HOLDS):
        self.seed, self.shards, self.folder, self.path = seed, shards, f"{room}/stores", f"{room}/plan.toml"
        self.maker = ServedMaker(f"{seed} {shards}", shards, int(time.time()), holds)
        self.environment = self.maker.dice.choice([{}, {"LD_PRELOAD": stop, "SLOW": str(SLOW)}])
        self.plan, self.server, self.begun = Plan(self.maker.plan_text), None, 0
        os.mkdir(self.folder)
        with open(self.path, "wb") as file:
            file.write(self.maker.plan_text)
        self.sweeping = self.maker.dice.choice([NEVER, BY_TIME, BY_MESSAGES])
        self.places = self.maker.dice.choice([len(HOSTS) + 1, 4 * len(HOSTS)])
        self.gateways = {peer: Gateway(self, peer) for peer in HOSTS}
        self.operator, self.runs = Operator(self), []

    def begin(self):
        self.begun = time.time()
        self.server = serving.Port(self.folder, *self.sweeping.split(), "--silent", "0", places=self.places, plan=self.path, **self.environment)
        if self.server.port is None:
            raise RuntimeError(f"the server doesn't begin: {self.server.ends()}")

    def end(self):
        """The quiet end, behind a sweep and looks at each account and each ledger."""
        for gateway in self.gateways.values():
            gateway.leave(Visit.closes)
        self.operator.sweep()
        for subscriber in self.maker.subscribers:
            self.operator.look_at_ledger(subscriber)
        samples, _ = exposition.read(self.server.call("GET", "/metrics")[1])
        self.server.call("POST", "/stop")
        numbers, _ = self.server.quiet(f"seed {self.seed}, {self.shards} shards")
        self.runs.append(Run(self.begun, time.time(), numbers, samples))

    def play(self, count):
        """About so many events, with an end and a new beginning in their midst. All that was seen."""
        self.begin()
        self.maker.begin()
        items, done, is_again = [read_event(*line.encode().split(b" ")) for line in self.maker.lines], 0, False
        while done < count:
            self.play_epoch(items)
            done += len(items)
            if done > count / 2 and not is_again:
                is_again = True
                self.end()
                self.begin()
            items = self.maker.epoch(self.maker.dice.choice(EVENTS_OF_EPOCH))
        self.end_of_gateways()
        self.end()
        stores = [read_rows(f"{self.folder}/shard-{shard}.db") for shard in range(self.shards)]
        printed = {it: serving.run("ledger", self.path, self.folder, word_of(it)) for it in self.maker.subscribers[:LEDGERS]}
        visits = [visit for gateway in self.gateways.values() for visit in gateway.visits]
        again, it = sum(gateway.again for gateway in self.gateways.values()), self.operator
        return Seen(self.maker.plan_text, self.sweeping, visits, it.top_ups, it.sweeps, it.looks, it.ledgers, self.runs, stores, printed, again)

    def play_epoch(self, items):
        parts = [(self.operator, [it for it in items if it[0] in (b"topup", b"sweep")])]
        parts += [(gateway, [it for it in items if it[0] not in (b"topup", b"sweep") and it[1] == peer]) for peer, gateway in self.gateways.items()]
        serving.each_at_once(lambda part: part[0].play(part[1]), [part for part in parts if part[1]])

    def end_of_gateways(self):
        """All go, and ask again what was asked over connections that died or closed too early for an answer."""
        for gateway in self.gateways.values():
            gateway.leave(Visit.closes)
        serving.each_at_once(Gateway.ask_again, list(self.gateways.values()))
