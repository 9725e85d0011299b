"""What the scripts share that try `dcc serve` as gateways see it: the program that their command line names, its runs and its stores, connections to
it, and the count of what holds.

Answers are compared octet for octet with what tests/rows/words.py spells.
"""

import atexit
import contextlib
import functools
import http.client
import json
import os
import re
import socket
import struct
import subprocess
import sys
import tempfile
import threading
import time

HERE = os.path.dirname(os.path.abspath(__file__))
TOP = os.path.dirname(HERE)
sys.path.insert(0, f"{HERE}/rows")
import words  # noqa: E402
from words import behind_opening  # noqa: E402

NAMED = [it for it in sys.argv[1:] if not it.startswith("--")]
PROGRAM = os.path.abspath(NAMED[0]) if NAMED else f"{TOP}/crates/dcc_server/out/dcc_server"
PLAN, MOMENT = f"{HERE}/rows/rows.toml", "1748736000"
A, C = "0:491700000001", "0:491700000002"
# A thread audits its receipts once it has so many.
STRETCH = 65_536
# In the paths of calls, percent-encoded or not.
NAMES = {A: "0:491700000001", C: "0%3A491700000002"}
OPEN, OPENED = "cer/app", "cea/2001/"


def opening(host):
    """As OPEN, of this host."""
    return f"raw/cer/Origin-Host='{host}'+Origin-Realm='example'+Host-IP-Address=x00017f000001+Vendor-Id=0+Product-Name='gw'+app"


OPEN_OTHER = opening("gw2.example")
DEBIT, DEBITED = "debit/0/1001", "cca/2001/4/0/g1001"
# A debit whose answer is so large that it goes out alone.
LARGE = "ccr/4/1/debit+sub+a1000+Proxy-Info{Proxy-Host='p'+Proxy-State=x00*32768}"
BUSY = "raw/60000110000000040000001100000021/session+Result-Code=3004+server"
# The end of a busy answer's Result-Code.
TOO_BUSY = "0000010c4000000c00000bbc"
# Spelled once: that takes longer than an answer.
spelled = functools.cache(words.spelled)
# So many seconds a gateway waits for an answer, and a script for the end of a program.
ANSWER_SECONDS, END_SECONDS = 20, 60
# A server that stays looks once a second whether it is to end, and so do its reads; and it waits two seconds for the ends of its gateways. The rest is for a
# crowded machine.
STOP_SECONDS = 8
# So many seconds the server waits in all for the octets of an operator's connection (crates/dcc_sockets/src/calls.rs).
CALL_SECONDS = 10
# So many seconds more than its time an event may take on a crowded machine, and a gateway waits at most for a place that is free.
SOON = 5
passed, failed = 0, 0
counting = threading.Lock()


def judge(name, holds, said=""):
    """Counts whether something holds, and says what doesn't."""
    global passed, failed
    with counting:
        passed, failed = passed + bool(holds), failed + (not holds)
    if not holds:
        print(f"{name}: {said}", file=sys.stderr)


def equal(name, found, wanted):
    judge(name, found == wanted, f"{found!r}, and not {wanted!r}")


def each_equal(name, found, wanted):
    """Judges lists of answers, and shows the first that differs."""
    at = next((it for it, (one, other) in enumerate(zip(found, wanted)) if one != other), min(len(found), len(wanted)))
    equal(f"{name}, {at} of {len(wanted)}", found[at:at + 1], wanted[at:at + 1])


def finish():
    """Says how much held, and ends the script."""
    print(f"{passed} passed, {failed} failed")
    sys.exit(failed > 0)


def run(*words):
    """What the program prints, where it ends well, or how it ends."""
    ran = subprocess.run([PROGRAM, *words], stdin=subprocess.DEVNULL, capture_output=True, timeout=END_SECONDS, text=True)
    return ran.stdout if ran.returncode == 0 else (ran.returncode, ran.stderr)


def top_up(folder, ticket, amount, sub=A, plan=PLAN):
    equal("a top-up", run("topup", plan, folder, sub, str(ticket), str(amount), MOMENT), "done\n")


def last_line(folder, sub=A, plan=PLAN):
    """The last line of a ledger."""
    printed = run("ledger", plan, folder, sub)
    return printed.splitlines()[-1] if isinstance(printed, str) else printed


def without_times(printed):
    """A ledger without the moments of its lines, which are the clock's."""
    return [line.split()[2:] for line in printed.splitlines()[:-1]] + printed.splitlines()[-1:] if isinstance(printed, str) else printed


class Server:
    """A run of `dcc serve`: with these options, or on a port of the system's choice."""

    def __init__(self, folder, gates=1, rounds=1, every=0, silent=0, plan=PLAN, options=None, **environment):
        words = ["--listen", "127.0.0.1:0", "--gates", str(gates), "--rounds", str(rounds), "--every", str(every), "--silent", str(silent)]
        words = words if options is None else options
        # A file takes what is said: a pipe that nobody reads would hold the server.
        self.lines = tempfile.TemporaryFile()
        self.process = subprocess.Popen([PROGRAM, "serve", plan, folder, *words], stdin=subprocess.DEVNULL, stdout=subprocess.PIPE,
                                        stderr=self.lines, text=True, env={**os.environ, **environment})
        # A script that fails leaves no server behind.
        atexit.register(self.kill)
        line = self.process.stdout.readline()
        self.port = int(line.rsplit(":", 1)[1]) if line.startswith("listening 127.0.0.1:") else None

    def all_said(self):
        """What it has said until now."""
        return os.pread(self.lines.fileno(), os.fstat(self.lines.fileno()).st_size, 0).decode()

    def said(self):
        """What it has said until now, but for the lines of its opening, and those of audits, which come by the clock."""
        return re.sub(r"^dcc: audits .*\n", "", behind_opening(self.all_said()), flags=re.MULTILINE)

    def kill(self):
        """Ends it, if it hasn't ended."""
        self.process.kill()
        self.process.wait()

    def ends(self):
        """Its status, what it printed behind its first line, and what it said."""
        late = ""
        try:
            printed, _ = self.process.communicate(timeout=END_SECONDS)
        except subprocess.TimeoutExpired:
            self.process.kill()
            printed, _ = self.process.communicate()
            late = "it had to be killed\n"
        atexit.unregister(self.kill)
        return self.process.returncode, printed, self.said() + late

    def ended(self, name, line, status=0):
        """Judges that it has ended so, and gives what it said."""
        ended = self.ends()
        equal(f"{name}, the end", ended[:2], (status, line))
        return ended[2]


class Staying(Server):
    """A run of `dcc serve --stay` with so many places and these further options. A file `stop` in its folder tells it to end."""

    def __init__(self, folder, places, *options, plan=PLAN, **environment):
        words = ["--stay", "--listen", "127.0.0.1:0", "--gates", str(places), *options]
        super().__init__(folder, plan=plan, options=words, **environment)
        self.stop = f"{folder}/stop"

    def told(self):
        """Tells it to end."""
        open(self.stop, "w").close()

    def stopped(self, name, status=0, more=0):
        """Tells it to end, and judges its end."""
        self.told()
        return self.quiet(name, status, more)

    def quiet(self, name, status=0, more=0):
        """Judges that it ends so, in time or in so many seconds more, and behind the line of one round, and that the file is gone.
        The round's requests, answers and acts, and what it said."""
        begun = time.monotonic()
        found, printed, said = self.ends()
        took = time.monotonic() - begun
        line = re.fullmatch(r"round 1 requests (\d+) answers (\d+) acts (\d+)\n", printed)
        judge(f"{name}, the end", found == status and line, (found, printed, said[-1000:]))
        judge(f"{name}, the end in time", took < STOP_SECONDS + more, f"{took:.1f} seconds")
        judge(f"{name}, the file is gone", not os.path.exists(self.stop))
        return tuple(int(it) for it in line.groups()) if line else (0, 0, 0), said


class Port(Staying):
    """A server that stays, with an operator's port."""

    def __init__(self, folder, *options, places=2, plan=PLAN, **environment):
        super().__init__(folder, places, "--operator", "127.0.0.1:0", *options, plan=plan, **environment)
        told = re.search(r"^dcc: operators at 127\.0\.0\.1:(\d+)$", self.all_said(), re.MULTILINE)
        self.calls = int(told[1]) if told else 0

    def said(self):
        return re.sub(r"^dcc: operators at .*\n", "", super().said(), flags=re.MULTILINE)

    def call(self, method, path, body=None, fields=None, seconds=CALL_SECONDS + SOON):
        """The status and the text of one call, by a connection of its own."""
        connection = http.client.HTTPConnection("127.0.0.1", self.calls, timeout=seconds)
        with contextlib.closing(connection):
            connection.request(method, path, body, {"Connection": "close", **(fields or {})})
            answer = connection.getresponse()
            self.fields = dict(answer.getheaders())
            return answer.status, answer.read().decode()

    def calls_json(self, method, path, body=None):
        status, text = self.call(method, path, body)
        return status, json.loads(text)

    def tops_up(self, sub, ticket, amount):
        return self.calls_json("POST", f"/subscribers/{NAMES.get(sub, sub)}/topups", json.dumps({"ticket": ticket, "amount": amount}))

    def account(self, sub):
        return self.calls_json("GET", f"/subscribers/{NAMES.get(sub, sub)}")[1]


class Gateway:
    """A connection to a server. What it sends and is answered is spelled by words."""

    def __init__(self, server, room=None):
        self.socket = socket.socket()
        self.socket.settimeout(ANSWER_SECONDS)
        if room:
            self.socket.setsockopt(socket.SOL_SOCKET, socket.SO_RCVBUF, room)
        self.socket.connect(("127.0.0.1", server.port))
        self.socket.setsockopt(socket.IPPROTO_TCP, socket.TCP_NODELAY, 1)
        # As the server tells where it comes from.
        self.name = "{}:{}".format(*self.socket.getsockname())

    def opened(self):
        self.asks(OPEN, OPENED)
        return self

    def send(self, *words):
        self.socket.sendall(bytes.fromhex("".join(spelled(word) for word in words)))

    def octets(self, count):
        got = b""
        while len(got) < count:
            piece = self.socket.recv(count - len(got))
            if not piece:
                raise ConnectionError
            got += piece
        return got

    def answer(self):
        """The next message in hex; nothing where the connection has closed, or where none comes in time."""
        try:
            head = self.octets(4)
            return (head + self.octets(int.from_bytes(head[1:], "big") - 4)).hex()
        except OSError:
            return ""

    def ask(self, word):
        try:
            self.send(word)
        except OSError:
            return ""
        return self.answer()

    def asks(self, word, wanted):
        equal(word, self.ask(word), spelled(wanted) if wanted else "")

    def is_deaf(self, pieces=10):
        """Asks twenty times as often for a large answer, and then for a watchdog's now and then, and reads nothing, until the connection ends or half a minute
        is over. Ten pieces are more than the system takes of answers, and fewer than a gateway may be owed."""
        piece = bytes.fromhex(spelled(LARGE)) * 20
        with contextlib.suppress(OSError):
            for _ in range(pieces):
                self.socket.sendall(piece)
            for _ in range(60):
                time.sleep(0.5)
                self.send("dwr")

    def is_ended(self):
        """Whether the server has ended the connection: a silent one isn't."""
        try:
            return not self.socket.recv(1)
        except ConnectionError:
            return True
        except TimeoutError:
            return False

    def close(self):
        self.socket.close()

    def reset(self):
        """Closes without a farewell: what is on its way is lost."""
        self.socket.setsockopt(socket.SOL_SOCKET, socket.SO_LINGER, struct.pack("ii", 1, 0))
        self.socket.close()


def until(holds, seconds):
    """Waits until something holds, for so many seconds at most, and returns whether it does."""
    end = time.monotonic() + seconds
    while not holds() and time.monotonic() < end:
        time.sleep(0.05)
    return holds()


def shard_of(sub, shards):
    """The shard of a subscriber, of so many."""
    kind, _, data = sub.partition(":")
    return (int(kind) + sum(data.encode())) % shards


def connected(server, count):
    """So many gateways. A round begins when all of its gateways have come."""
    return [Gateway(server) for _ in range(count)]


def folder_in(room, *amounts):
    """A folder whose store holds top-ups of A."""
    folder = tempfile.mkdtemp(dir=room)
    for ticket, amount in enumerate(amounts, 1):
        top_up(folder, ticket, amount)
    return folder


def read_number(folder, shard):
    """The number of acts that is kept beside a store, or none."""
    with contextlib.suppress(FileNotFoundError), open(f"{folder}/shard-{shard}.acts") as text:
        return int(text.read())
    return None


def name_of(text):
    return text.encode().hex()


def debit(name, number, sub="sub", octets=1000, more=""):
    """A debit under a session of this name, and its answer, with further words in both. 1,000 octets cost 5 in the plan of the rows."""
    session = name_of(name)
    return f"ccs/{session}/4/{number}/debit+{sub}+a{octets}{more}", f"cas/{session}/2001/4/{number}/g{octets}{more}"


def each_at_once(does, items):
    """What comes of each item, each in a thread of its own. A thread that isn't over ends with the script."""
    found, faults = {}, []

    def doing(at):
        try:
            found[at] = does(items[at])
        except Exception as fault:
            faults.append(fault)

    for thread in [started(doing, at) for at in range(len(items))]:
        thread.join()
    for fault in faults:
        raise fault
    return [found[at] for at in range(len(items))]


def started(does, *words):
    """A thread that does this, and doesn't outlive the script."""
    thread = threading.Thread(target=does, args=words, daemon=True)
    thread.start()
    return thread


def back_up_files(shards):
    """The files of a back-up of so many shards, in the order in which the server tells them."""
    return [f"shard-{it}.db{ending}" for it in range(shards) for ending in ("", "-wal")]


def short_plan(room):
    """A plan whose sessions are held for two seconds."""
    plan = f"{room}/short.toml"
    with open(PLAN) as text, open(plan, "w") as short:
        short.write(text.read().replace("validity = 600", "validity = 1").replace("hold = 1200", "hold = 2"))
    return plan


def granted(session, kind, number, octets):
    """An answer that grants octets of group 10 for a second, as the short plan does."""
    service = f"Granted-Service-Unit{{CC-Total-Octets={octets}}}+Rating-Group=10+Validity-Time=1+Result-Code=2001"
    return f"cas/{session}/2001/{kind}/{number}/Multiple-Services-Credit-Control{{{service}}}"


def shim(room, name):
    """A library that is preloaded, of a file in C."""
    made = f"{room}/{name}.so"
    subprocess.run([os.environ.get("CC", "cc"), "-O2", "-shared", "-fPIC", "-o", made, f"{HERE}/{name}.c"], check=True)
    return made
