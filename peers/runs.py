"""What peers/run and peers/partition share: the packages that they need, the processes of gateways and servers, and the judgement of answers, ledgers
and watchdogs.
"""

import argparse
import glob
import os
import shutil
import socket
import subprocess
import sys
import time
from collections import Counter

from work import HOST, Work

HERE = os.path.dirname(os.path.abspath(__file__))
TOP = os.path.dirname(HERE)

SHARDS = 4
MOMENT = "1748736000"
WATCHDOG = 6

# What is wanted, and the package of Debian that has it.
COMMANDS = {"cc": "gcc", "erl": "erlang-base", "erlc": "erlang-base", "diameterc": "erlang-diameter", "freeDiameterd": "freediameterd"}
FILES = {"freeDiameter/dict_dcca.fdx": "freediameter-extensions", "freeDiameter/acl_wl.fdx": "freediameter-extensions",
         "erlang/lib/diameter-*/include/diameter_gen.hrl": "erlang-dev"}
FOLDERS = ["/usr/lib", "/usr/local/lib"]

wrong = []


def tell(text):
    print(f"peers: {text}", file=sys.stderr, flush=True)


def judge(name, holds, said):
    """Keeps what doesn't hold; prints the first twenty."""
    if not holds:
        wrong.append(name)
        if len(wrong) <= 20:
            tell(f"{name}: {said}")


def missing():
    """The packages that aren't there."""
    packages = {package for command, package in COMMANDS.items() if not shutil.which(command)}
    packages |= {package for path, package in FILES.items() if not any(glob.glob(f"{folder}/{path}") for folder in FOLDERS)}
    if shutil.which("cc") and not compiles("#include <freeDiameter/extension.h>\n"):
        packages.add("libfreediameter-dev")
    if shutil.which("erlc") and not shutil.which("diameterc"):
        packages.add("erlang-diameter")
    return sorted(packages)


def compiles(text):
    return subprocess.run(["cc", "-fsyntax-only", "-xc", "-"], input=text, text=True, capture_output=True).returncode == 0


def build(room, *modules):
    """The gateways, and further modules of Erlang, into a folder that goes away."""
    for words in (["cc", "-O2", "-Wall", "-shared", "-fPIC", "-o", f"{room}/gateway.so", f"{HERE}/gateway.c"],
                  ["diameterc", "-o", room, f"{HERE}/credit.dia"], ["erlc", "-o", room, f"{room}/credit.erl"],
                  *(["erlc", "-o", room, f"{HERE}/{module}.erl"] for module in ("gateway", *modules))):
        built = subprocess.run(words, capture_output=True, text=True, cwd=room)
        if built.returncode:
            sys.exit(f"peers: {' '.join(words)}: {built.stdout}{built.stderr}")


def free_port():
    with socket.socket() as taken:
        taken.bind(("127.0.0.1", 0))
        return taken.getsockname()[1]


class Process:
    """A process whose outputs go to files of the room."""

    def __init__(self, room, name, words):
        self.name, self.log = name, f"{room}/{name}.log"
        with open(self.log, "w") as log:
            self.process = subprocess.Popen(words, stdin=subprocess.DEVNULL, stdout=log, stderr=log, cwd=room,
                                            env={**os.environ, "ERL_CRASH_DUMP_SECONDS": "0"})

    def ended(self, patience):
        try:
            status = self.process.wait(patience)
        except subprocess.TimeoutExpired:
            self.process.kill()
            status = self.process.wait()
        if status:
            with open(self.log, errors="replace") as log:
                judge(self.name, False, f"ended with {status}: {log.read()[-2000:]}")

    def stop(self):
        self.process.terminate()
        self.ended(30)


def daemon(room, name, host, realm, port, peers, *extensions):
    """freeDiameter's daemon under a configuration: without TLS and SCTP; with port 0 it listens nowhere. It asks those it connects to after
    WATCHDOG seconds, and those that connect to it later, so that these ask first."""
    lines = [f'Identity = "{host}";', f'Realm = "{realm}";', f"Port = {port};", "SecPort = 0;", "No_SCTP;", "No_IPv6;",
             "TwTimer = 30;", "TcTimer = 5;", 'LoadExtension = "dict_nasreq.fdx";', 'LoadExtension = "dict_dcca.fdx";', *extensions]
    lines += [f'ConnectPeer = "{peer}" {{ ConnectTo = "127.0.0.1"; Port = {at}; No_TLS; No_SCTP; TwTimer = {WATCHDOG}; }};' for peer, at in peers]
    with open(f"{room}/{name}.conf", "w") as file:
        file.write("\n".join(lines) + "\n")
    return Process(room, name, ["freeDiameterd", "-c", f"{room}/{name}.conf"])


def free_diameter(room, host, port, lanes, seconds, to=HOST, pause=0):
    """A gateway of freeDiameter, which knows the name of the server or relay that it connects to. A pause is of so many milliseconds."""
    with open(f"{room}/{host}.settings", "w") as file:
        file.write(f"{room}/{host}.work {room}/{host}.answers {lanes} {seconds} {to} {pause}\n")
    return daemon(room, host, host, "access.example", 0, [(to, port)], f'LoadExtension = "{room}/gateway.so" : "{room}/{host}.settings";')


def erlang(room, host, port, lanes, seconds, to=HOST, pause=0):
    """A gateway of Erlang's diameter, which takes whatever name its peer has."""
    return Process(room, host, ["erl", "-noshell", "-noinput", "-pa", room, "-s", "gateway", "main", "-extra", str(port), f"{room}/{host}.work",
                                f"{room}/{host}.answers", str(lanes), str(seconds), host, str(pause)])


class Server:
    """A run of `dcc serve` for one round of gateways, or for so many places, on a port, or on one of the system's choice."""

    def __init__(self, room, program, plan, folder, gates, *options, name="server", port=0):
        self.log, self.folder = f"{room}/{name}.log", folder
        words = [program, "serve", plan, folder, "--listen", f"127.0.0.1:{port}", "--gates", str(gates), "--every", "1000", *options]
        with open(self.log, "w") as log:
            self.process = subprocess.Popen(words, stdin=subprocess.DEVNULL, stdout=subprocess.PIPE, stderr=log, text=True)
        line = self.process.stdout.readline()
        if not line.startswith("listening 127.0.0.1:"):
            sys.exit(f"peers: the server didn't begin: {self.said()}")
        self.port = int(line.rsplit(":", 1)[1])

    def said(self):
        with open(self.log) as log:
            return log.read()

    def has_come(self, count):
        """Waits until so many gateways have connected. freeDiameter, if it waits ten seconds for a round's others, connects again and takes a
        second place."""
        for _ in range(600):
            if self.said().count("came from") >= count:
                break
            time.sleep(0.1)

    def stop(self):
        """Asks a server with --stay to end quietly."""
        with open(f"{self.folder}/stop", "w"):
            pass

    def ends(self):
        """Its status, its round's line in numbers, and what it said."""
        try:
            printed = self.process.communicate(timeout=600)[0]
        except subprocess.TimeoutExpired:
            self.process.kill()
            printed = self.process.communicate()[0]
        words = printed.split()
        return self.process.returncode, dict(zip(words[::2], map(int, words[1::2]))), self.said()


class Answers:
    """What a gateway wrote of its answers: which are wrong, and its messages of the base protocol."""

    def __init__(self, path, name, work):
        lines = []
        if os.path.exists(path):
            with open(path, errors="replace") as file:
                lines = file.read().splitlines()
        self.base, self.seconds, self.repeats, self.right, seen = [0] * 6, 0.0, 0, 0, set()
        for line in lines:
            number, _, told = line.partition(" ")
            if number == "base":
                words = told.split()
                self.base, self.seconds, self.repeats = [int(word) for word in words[:6]], int(words[7]) / 1000, int(words[9])
            elif not number.isdecimal() or int(number) in seen:
                judge(name, False, line)
            else:
                seen.add(int(number))
                wanted = work.wanted[int(number)]
                self.right += told == wanted
                judge(name, told == wanted, f"{work.lines[int(number)]} is answered {told}, and not {wanted}")
        judge(name, len(seen) == len(work.lines), f"{len(seen)} answers to {len(work.lines)} requests")


def ledger(program, plan, folder, sub):
    ran = subprocess.run([program, "ledger", plan, folder, f"0:{sub}"], stdin=subprocess.DEVNULL, capture_output=True, text=True)
    return ran.stdout.splitlines() if ran.returncode == 0 else [ran.stderr]


def judge_ledger(name, sub, lines, account, in_order):
    """A ledger against the account: line by line; or, if gateways charged at once, its lines in any order, and what they add up to."""
    if account is None:
        judge(name, lines == [f"account 0:{sub} unknown"], lines[-1])
        return
    found = [line.split()[:1] + line.split()[2:] for line in lines[1:-1]]
    wanted = [line.split() for line in account.page()[:-1]]
    if not in_order:
        funds = 0
        for line in found:
            funds += int(line[4])
            judge(name, line[5] == str(funds), f"{sub}: {line}, where {funds} are left")
        found, wanted = (sorted(line[1:5] + line[6:] for line in lines) for lines in (found, wanted))
    for has, wants in zip(found, wanted):
        judge(name, has == wants, f"{sub}: {has}, and not {wants}")
    judge(name, len(found) == len(wanted), f"{sub}: {len(found)} lines, and not {len(wanted)}")
    judge(name, lines[-1] == account.page()[-1], f"{sub}: {lines[-1]}, and not {account.page()[-1]}")


def shown(numbers):
    return "/".join(map(str, numbers))


def top_up(title, program, plan, folder, accounts):
    for sub, account in accounts.items():
        if account:
            topped = subprocess.run([program, "topup", plan, folder, f"0:{sub}", "1", str(account.funds), MOMENT], capture_output=True, text=True)
            judge(title, topped.stdout == "done\n", f"a top-up is {topped.stdout or topped.stderr}")


def judge_watchdogs(title, answers, seconds, cuts):
    """A gateway that is idle asks after each watchdog's time, give or take two seconds (RFC 3539, section 3.4.1). It asks for an exchange of
    capabilities once for each connection; Erlang's counters are those of the last connection."""
    for host, it in answers.items():
        due = seconds // (WATCHDOG + 2) - 1
        judge(title, it.base[2] >= due and it.base[2] - cuts <= it.base[3] <= it.base[2], f"{host} sent {it.base[2]} watchdogs, and had {it.base[3]} answers")
        judge(title, it.base[0] == it.base[1] in (1, 1 + cuts) and it.base[4] == it.base[5] == 1, f"{host} asked {it.base}")


def print_row(cells):
    print("| " + " | ".join(cells) + " |", flush=True)


GATEWAY_HEADS = ["run", "gateway", "requests", "answered right", "of them", "a second", "CER/CEA", "DWR/DWA", "DPR/DPA"]


def print_heads(heads):
    print_row(heads)
    print("|" + "---|" * len(heads))


def gateway_cells(title, host, work, it):
    """What the tables say of a gateway's requests, their answers, and its messages of the base protocol."""
    codes = ", ".join(f"{code}: {count}" for code, count in sorted(work.results().items()))
    count = len(work.lines)
    return [title, host, f"{count:,}", f"{it.right:,}", codes, f"{count / max(it.seconds, 0.001):,.0f}",
            shown(it.base[:2]), shown(it.base[2:4]), shown(it.base[4:])]


def plan_works(room, hosts, options, accounts, **choices):
    """The work of each gateway, and its lines in a file."""
    works = {host: Work(host, options.requests, options.lanes, accounts, **choices) for host in hosts}
    for host, work in works.items():
        with open(f"{room}/{host}.work", "w") as file:
            file.write("".join(f"{line}\n" for line in work.lines))
    return works


def parser(name, description):
    """The options of both scripts."""
    it = argparse.ArgumentParser(prog=name, description=description)
    it.add_argument("program", nargs="?", default=f"{TOP}/crates/dcc_server/out/dcc_server")
    it.add_argument("--requests", type=int, default=2000)
    it.add_argument("--minutes", type=float, default=1 / 3)
    it.add_argument("--subscribers", type=int, default=100)
    it.add_argument("--lanes", type=int, default=16)
    return it


def program_of(asked):
    """The program, if it is there and each package too."""
    packages = missing()
    if packages:
        print(f"peers: not run: apt-get install {' '.join(packages)}")
        sys.exit(2)
    program = os.path.abspath(asked.program)
    if not os.access(program, os.X_OK):
        print(f"peers: not run: no program {asked.program}: prove and build it by rt run in crates/dcc_server")
        sys.exit(2)
    return program


def end():
    """Prints how many comparisons failed in each run, and ends."""
    for name, count in Counter(wrong).items():
        print(f"{name}: {count} wrong")
    print("all as it has to be" if not wrong else f"{len(wrong)} wrong")
    sys.exit(bool(wrong))
