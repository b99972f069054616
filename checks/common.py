"""What the checks share: the program, what a check needs, commands as RESP2, conf files, free ports, clients, counts.

A check begins with comments that `checks/all` and `common.need()` read:

    #!/usr/bin/env python3
    # needs: program strace
    # quick: --stories 40

`needs` names commands that have to be installed, or `program` (the built program), `plain` (the program without an address sanitizer) or
`rt` (the toolchain). `quick` has the words that `checks/all --quick` adds, or `no` where it leaves the check out; it leaves out what needs `rt` too,
unless there are such words.
"""
import contextlib
import fcntl
import functools
import os
import random
import re
import shutil
import socket
import statistics
import subprocess
import sys
import tempfile
import threading
import time

TOP = os.path.dirname(os.path.dirname(os.path.realpath(__file__)))
sys.path.insert(0, os.path.join(TOP, "tools"))
sys.dont_write_bytecode = True
import kit

# The proved program where there is one of the sources as they are, else the unproved one; where there is neither, the place of the proved one.
PROGRAM = os.environ.get("SENTINEL_GROUP") or kit.kept("proved") or kit.kept("unproved") or os.path.join(kit.OUT, "proved", kit.PROGRAM)
# `watch`, whose notes begin without the time, so that a check may look at how they begin.
WATCH = [PROGRAM, "watch", "--no-times"]
PACKAGES = {
    "cc": "apt-get install gcc",
    "dpkg-deb": "apt-get install dpkg",
    "haproxy": "apt-get install haproxy",
    "ip": "apt-get install iproute2",
    "nsenter": "apt-get install util-linux",
    "prometheus-redis-exporter": "apt-get install prometheus-redis-exporter",
    "prometheus": "apt-get install prometheus",
    "promtool": "apt-get install prometheus",
    "redis-benchmark": "apt-get install redis-tools",
    "redis-cli": "apt-get install redis-tools",
    "redis-sentinel": "apt-get install redis-sentinel",
    "redis-server": "apt-get install redis-server",
    "rt": "the toolchain of Rattle, whose folder of commands stands in PATH",
    "strace": "apt-get install strace",
    "tclsh": "apt-get install tcl",
    "wg": "apt-get install wireguard-tools",
    "wg-quick": "apt-get install wireguard-tools",
}
FIRST_PORT, LAST_PORT = 10_000, 32_000  # below the ports that a system gives to connections
LONG = 300  # seconds after which what doesn't come is given up: only a run that fails waits so long


# --- needs ---


def head_of(path, word):
    """The words after `# needs:` or `# quick:` in the first lines of a script; none where there is no such line."""
    with open(path, encoding="utf-8", errors="replace") as text:
        for line in text.readlines(1000)[:5]:
            if found := re.fullmatch(rf"# {word}:(.*)\n", line):
                return found[1].split()
    return None


@functools.cache
def has_sanitizer():
    """Whether the program was built with an address sanitizer, as an unproved one is."""
    with open(PROGRAM, "rb") as program:
        return b"__asan_init" in program.read()


def lacking(needs):
    """Why these needs aren't met, each with what to do about it."""
    for name in needs:
        is_built = os.access(PROGRAM, os.X_OK)
        if name in ("program", "plain") and not is_built:
            yield f"the program at {PROGRAM}: ./sentinel_group prove makes it, or SENTINEL_GROUP names another one"
        elif name == "plain" and has_sanitizer():
            yield f"a program without an address sanitizer, and {PROGRAM} has one"
        elif name not in ("program", "plain") and not shutil.which(name):
            yield f"{name}: {PACKAGES.get(name, 'it is not installed')}"


def kind_kept():
    """Which program of these sources is kept, the proved one or the other. Where none is, the check ends with status 2, as it can't run."""
    kind = next((kind for kind in ("proved", "unproved") if kit.kept(kind)), None)
    if not kind:
        print(f"checks/{os.path.basename(sys.argv[0])} needs a kept program: ./sentinel_group prove, or ./sentinel_group once", file=sys.stderr)
        sys.exit(2)
    return kind


def need():
    """Ends the check with status 2 where something that it needs isn't there."""
    path = os.path.realpath(sys.argv[0])
    missing = list(lacking(head_of(path, "needs") or []))
    for line in missing:
        print(f"{os.path.relpath(path, TOP)} needs {line}", file=sys.stderr)
    if missing:
        sys.exit(2)


def watch_words(program):
    """The words of `watch` without times at a program that may be an older one, which has no times and no word against them."""
    told = subprocess.run([program, *WATCH[1:-1], "--help"], stdin=subprocess.DEVNULL, stdout=subprocess.PIPE, text=True).stdout
    return WATCH[1:] if WATCH[-1] in told else WATCH[1:-1]


# --- commands, files and ports ---


def command(*words):
    """A command as a client spells it in RESP2; words are bytes, or what has a text."""
    spelled = [word if isinstance(word, bytes) else str(word).encode() for word in words]
    return b"*%d\r\n" % len(spelled) + b"".join(b"$%d\r\n%b\r\n" % (len(word), word) for word in spelled)


ASK_ADDRESS = command("SENTINEL", "GET-MASTER-ADDR-BY-NAME", "mymaster")


def ask_vote(port, epoch, candidate):
    """The request for the vote of an epoch for a candidate, of the master at this port of 127.0.0.1."""
    return command("SENTINEL", "IS-MASTER-DOWN-BY-ADDR", "127.0.0.1", port, epoch, candidate)


def foreign(path, ip):
    """What `check` of one file says whose ip is none of this machine: on its only line of standard error."""
    return f"warning: {path}:0: announce-ip {ip} is no address of this machine: see that it is the right file, unless addresses are translated (NAT)\n"


def run_id(place):
    """The run id of the Sentinel at this place of a group: forty times a, b, c .."""
    return chr(ord("a") + place) * 40


def conf(place, ports, nodes, quorum=None, settings=None):
    """The conf of one of the Sentinels at these ports. They watch mymaster at the first of these nodes, whose replicas are the others; a
    majority is the quorum where none is named."""
    lines = [f"port {ports[place]}", f"sentinel myid {run_id(place)}", f"sentinel monitor mymaster 127.0.0.1 {nodes[0]} {quorum or len(ports) // 2 + 1}"]
    lines += [f"sentinel {name} mymaster {value}" for name, value in (settings or {}).items()]
    lines += [f"sentinel known-replica mymaster 127.0.0.1 {port}" for port in nodes[1:]]
    lines += [f"sentinel known-sentinel mymaster 127.0.0.1 {port} {run_id(other)}" for other, port in enumerate(ports) if other != place]
    return "\n".join(lines) + "\n"


def write_files(folder, texts):
    """Writes the conf files of a group, s0.conf, s1.conf .., and gives their paths."""
    paths = [os.path.join(folder, f"s{place}.conf") for place in range(len(texts))]
    for path, text in zip(paths, texts):
        with open(path, "w", encoding="utf-8") as out:
            out.write(text)
    return paths


def is_free(port):
    """Whether nobody listens at this port of 127.0.0.1."""
    with socket.socket() as tried:
        tried.setsockopt(socket.SOL_SOCKET, socket.SO_REUSEADDR, 1)
        try:
            tried.bind(("127.0.0.1", port))
        except OSError:
            return False
        return True


def taken(port):
    """A file that is locked while this process has the port, so that no other check takes it before somebody listens there; None where another one has it."""
    folder = os.path.join(tempfile.gettempdir(), "sentinel-group-ports")
    with contextlib.suppress(FileExistsError):
        os.mkdir(folder)
        os.chmod(folder, 0o1777)
    path = os.path.join(folder, str(port))
    try:
        # (in such a folder a file of another user may be opened, but not with O_CREAT)
        lock = os.open(path, os.O_RDONLY if os.path.exists(path) else os.O_RDONLY | os.O_CREAT, 0o644)
    except OSError:
        return None
    try:
        fcntl.flock(lock, fcntl.LOCK_EX | fcntl.LOCK_NB)
    except OSError:
        os.close(lock)
        return None
    return lock


def free_ports(count):
    """This many ports in a row at which nobody listens, and that no other check has."""
    for _ in range(1000):
        first = random.randrange(FIRST_PORT, LAST_PORT - count)
        ports = list(range(first, first + count))
        locks = [taken(port) for port in ports]
        if None not in locks and all(map(is_free, ports)):
            return ports  # (the locks end with this process)
        for lock in locks:
            if lock is not None:
                os.close(lock)
    raise RuntimeError(f"no {count} ports in a row are free")


# --- time ---


def wait_for(holds, seconds=LONG, pause=0.05):
    """Whether it holds, looked at until it does. What can't be had or read yet doesn't hold yet."""
    until = time.monotonic() + seconds
    while True:
        with contextlib.suppress(OSError, EOFError, IndexError, KeyError, TypeError, ValueError):
            if holds():
                return True
        if time.monotonic() > until:
            return False
        time.sleep(pause)


def middle(measure, times=3):
    """The median of what is measured so many times: one of them that the machine held up doesn't count."""
    return statistics.median(measure() for _ in range(times))


def held_up(work=0.004):
    """For how many seconds more than it had a processor this thread was at work that takes one for so many seconds: so long who works has none on this machine."""
    began, used = time.monotonic(), time.thread_time()
    while time.thread_time() - used < work:
        pass
    return max(0.0, time.monotonic() - began - work)


class Standing(threading.Thread):
    """A bare loop that sleeps for ten milliseconds again and again, and keeps for how many seconds it stood still at most: so late is who waits for something
    on this machine. It begins at once."""

    def __init__(self):
        super().__init__(daemon=True)
        self.longest, self.is_over, self.asleep = 0.0, False, time.monotonic()
        self.start()

    def run(self):
        while not self.is_over:
            self.asleep = time.monotonic()
            time.sleep(0.01)
            self.longest = max(self.longest, time.monotonic() - self.asleep - 0.01)

    def so_far(self):
        return max(self.longest, time.monotonic() - self.asleep - 0.01)

    def end(self):
        """Ends the loop, and gives for how long it stood still."""
        self.is_over = True
        self.join()
        return self.longest


# --- clients ---


def connected(port, ip="127.0.0.1"):
    """A connection to a port at which somebody listens, or will."""
    until = time.monotonic() + LONG
    while True:
        try:
            return socket.create_connection((ip, port), timeout=LONG)
        except ConnectionRefusedError:
            if time.monotonic() > until:
                raise
        time.sleep(0.02)


class Client:
    """A connection to a port, whose answers are read one by one."""

    def __init__(self, port, ip="127.0.0.1"):
        self.socket = connected(port, ip)
        self.reader = self.socket.makefile("rb")

    def answer(self):
        """The bytes of the next value; what came where the stream ended."""
        line = self.reader.readline()
        if line[:1] in (b"*", b">", b"%", b"~"):
            return line + b"".join(self.answer() for _ in range(int(line[1:]) * (2 if line[:1] == b"%" else 1)))
        if line[:1] in (b"$", b"=") and line != b"$-1\r\n":
            return line + self.reader.read(int(line[1:]) + 2)
        return line

    def ask(self, *words):
        self.socket.sendall(command(*words))
        return self.answer()

    def __enter__(self):
        return self

    def __exit__(self, *_):
        self.reader.close()
        self.socket.close()


# --- counts ---


class Counts:
    """How many of the things that a check looked at held, and how many didn't; each of these is printed at once."""

    def __init__(self):
        self.passed = self.failed = 0

    def check(self, name, holds, why=""):
        """Counts what was looked at, and gives whether it holds."""
        if holds:
            self.passed += 1
        else:
            self.failed += 1
            print(f"failed: {name} {why}".rstrip(), flush=True)
        return bool(holds)

    def end(self):
        """Prints the last line and ends the check: with status 1 where something failed, or nothing was looked at."""
        print(f"{self.passed} passed, {self.failed} failed", flush=True)
        sys.exit(1 if self.failed or not self.passed else 0)
