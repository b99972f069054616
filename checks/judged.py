"""What watches a lab of `netlab` while faults are played, and judges it by the lab's own look: ports, files, the ROLE of each data node, acknowledged writes.

A check makes a `Judge` for each round. `Roles` and `Writer` are threads that run beside, where a case wants them.
"""
import collections
import random
import re
import socket
import threading
import time

import common
import netlab

counts = common.Counts()
# Seconds: until a new master is told by all, and where no Sentinel had a majority at first; until the old one that is back follows it; until all is well after a cut.
REPLACED, REPLACED_LATER, FOLLOWED, HEALED = 10, 35, 10, 30
# Until a Sentinel has heard an INFO of each node and a hello of each other Sentinel.
WARM = 4
# How many seconds one look of the check takes at most on a machine that keeps up.
SLOW = 1.5
# By how much a bound grows with how long the bare loop stood still at most, and how long that may be until Sentinels are in TILT, for so many seconds.
LATE, TILT, TILTED = 20, 1, 35
# How many more seconds an election takes in which the votes are split, with the pause after it; after how many a round is given up.
SPLIT, GIVEN_UP = 7, 45
# Seconds between two looks at the role of a data node, and after how many without an acknowledged write the writes have paused.
EACH_ROLE, PAUSED = 0.075, 0.15
VOTE = re.compile(r"\+vote-for-leader (\w+) (\d+)")


class Judge:
    """What the Sentinels of `watch` told, by epoch, over a whole round, and for whom they voted; and how long a second death lasted, with the bound of it."""

    def __init__(self, lab):
        self.lab, self.told, self.last, self.votes = lab, {}, {}, {}
        self.took = self.allowed = None
        self.longest, self.stood, self.beside = 0.0, 0.0, common.Standing()

    def look_at_votes(self):
        for name in self.lab.sentinels:
            if self.lab.kind(name) == "ours" and (vote := self.lab.vote(name)):
                epoch, leader = vote
                first = self.votes.setdefault(epoch, {}).setdefault(name, leader)
                if first != leader:
                    counts.check(f"one vote of {name} in epoch {epoch}", False, f"{first} and {leader}")

    def count_leaders(self):
        """Counts whether at most one candidate has a majority in each epoch."""
        need = len(self.lab.sentinels) // 2 + 1
        for epoch, votes in self.votes.items():
            leaders = [leader for leader in set(votes.values()) if list(votes.values()).count(leader) >= need]
            counts.check(f"one leader in epoch {epoch}", len(leaders) <= 1, str(votes))

    def look(self):
        self.look_at_votes()
        for name in running(self.lab, "ours"):
            told = None if name in self.lab.still else self.lab.configuration(name)
            if not told:
                continue
            epoch, node = told
            first = self.told.setdefault(epoch, node)
            if first != node:
                counts.check(f"one address for epoch {epoch}", False, f"{first} and {node}")
            if epoch < self.last.get(name, 0):
                counts.check(f"the epoch of {name}", False, f"fell from {self.last[name]} to {epoch}")
            self.last[name] = epoch

    def wait(self, test, seconds):
        """How long it took until this was so, in seconds; None where it didn't come. It looks meanwhile."""
        began = looked = time.monotonic()
        while time.monotonic() - began < seconds:
            self.look()
            if test():
                return time.monotonic() - began
            time.sleep(0.05)
            now = time.monotonic()
            self.longest, looked = max(self.longest, now - looked), now
        return None

    def within(self, what, seconds, test):
        """Counts whether this came within so many seconds, and says when."""
        took = self.wait(test, seconds + common.LONG)
        told = "never" if took is None else f"{took:.2f} s"
        bound = self.bound(seconds)
        counts.check(what, took is not None and took <= bound, f"{told}, and {bound:.1f} s are the bound")
        return told

    def bound(self, seconds):
        """So many seconds, and what this machine takes longer by the bare loop that runs beside: it has stood still, and who stood still for long is in TILT."""
        stood = self.beside.so_far()
        return seconds + LATE * stood + (TILTED if stood > TILT else 0)

    def pause(self, seconds):
        self.wait(lambda: False, seconds)


def running(lab, kind=None):
    """The Sentinels that run, of a kind where one is named."""
    lab.watch_ends()
    return [name for name in lab.sentinels if name in lab.processes and kind in (None, lab.kind(name))]


def agreed(lab, among=None):
    """The node that all these Sentinels tell, where it is a master; None else."""
    told = {lab.told(name) for name in among or running(lab)}
    node = told.pop() if len(told) == 1 else None
    return node if node in lab.processes and lab.role(node) == "master" else None


def is_replaced(lab, among=None):
    return agreed(lab, among) not in (None, "d0")


def splits(lab):
    """In how many epochs the votes went to more than one Sentinel, which chance decides."""
    votes = collections.defaultdict(set)
    for name in lab.sentinels:
        for leader, epoch in VOTE.findall(lab.log(name)):
            votes[epoch].add(leader)
    return sum(len(leaders) > 1 for leaders in votes.values())


def is_split(lab):
    return splits(lab) > 0


def replaced(lab, judge, what, among=None):
    """Counts whether all these Sentinels told another master soon enough, and says when."""
    took = judge.wait(lambda: is_replaced(lab, among), REPLACED_LATER + common.LONG)
    told = "never" if took is None else f"{took:.2f} s"
    bound = judge.bound(REPLACED_LATER if is_split(lab) else REPLACED)
    counts.check(what, took is not None and took <= bound, f"{told}, and {bound:.1f} s are the bound")
    return f"{told}, votes having been split" if is_split(lab) else told


def is_whole(lab):
    """Whether all Sentinels run and tell one master, which all other nodes follow."""
    node = agreed(lab)
    followers = [name for name in lab.stores if name != node]
    return bool(node) and running(lab) == lab.sentinels and all(lab.role(name) == (node, "connected") for name in followers)


def is_kept(lab):
    """Whether the first master was never deposed."""
    return all(lab.configuration(name) == (0, "d0") for name in running(lab)) and lab.role("d0") == "master"


def judge_kept(lab, what):
    # (a master that was deposed once stays so; who doesn't answer within a second is asked anew)
    has_stayed = lab.wait(lambda: is_kept(lab), HEALED) is not None
    counts.check(what, has_stayed, str([lab.configuration(name) for name in running(lab)]))
    return "the master stayed" if has_stayed else "the master was deposed"

def leader_of(lab):
    """The Sentinel for which another one has voted by its log; it is looked for until there is one, or a new master."""
    until, ids = time.monotonic() + GIVEN_UP, {common.run_id(place): name for place, name in enumerate(lab.sentinels)}
    while time.monotonic() < until:
        for name in lab.sentinels:
            for leader, _ in VOTE.findall(lab.log(name)):
                if ids.get(leader, name) != name:
                    return ids[leader]
        time.sleep(0.005)
    return None


# --- what runs beside ---


class Line:
    """A connection to a data node that stays, so that a node which takes no more clients is heard still."""

    def __init__(self, lab, node, timeout=1.0):
        self.address, self.timeout, self.socket, self.reader = (lab.address(node), netlab.PORT), timeout, None, None

    def ask(self, *words):
        """What is answered, on a connection made anew where there is none; None where nothing is, and the connection is closed."""
        try:
            if self.socket is None:
                self.socket = socket.create_connection(self.address, timeout=self.timeout)
                self.reader = self.socket.makefile("rb")
            self.socket.sendall(common.command(*words))
            return netlab.read_value(self.reader)
        except (OSError, EOFError, ValueError):
            self.close()
            return None

    def role(self):
        """`master`, `slave`, or None where it says nothing."""
        found = self.ask("ROLE")
        return found[0] if isinstance(found, list) and found else None

    def hands_over(self):
        """Whether the node is handing over, or has done so: writes wait at it, or it is a replica."""
        found = self.ask("INFO", "replication") or ""
        return "role:slave" in found or "master_failover_state" in found and "master_failover_state:no-failover" not in found

    def close(self):
        if self.socket is not None:
            self.reader.close()
            self.socket.close()
        self.socket = self.reader = None


class Beside:
    """Threads that run beside a case until its end."""

    def __init__(self, *works):
        self.goes_on = True
        self.threads = [threading.Thread(target=work, daemon=True) for work in works]
        for thread in self.threads:
            thread.start()

    def end(self):
        self.goes_on = False
        for thread in self.threads:
            thread.join()


class Roles(Beside):
    """Asks each data node for its role again and again, each on a connection of its own, and keeps what it said and when."""

    def __init__(self, lab):
        self.lab, self.seen = lab, {node: [] for node in lab.stores}
        super().__init__(*(lambda node=node: self._look(node) for node in lab.stores))

    def _look(self, node):
        line = Line(self.lab, node)
        while self.goes_on:
            asked, role = time.monotonic(), line.role()
            self.seen[node].append((asked, time.monotonic(), role))
            time.sleep(EACH_ROLE)
        line.close()

    def spans(self, node):
        """From when until when it was a master: from the answer of a look to the question of the next one, where it was one by both."""
        looks = list(self.seen[node])
        return [(first[1], second[0]) for first, second in zip(looks, looks[1:]) if first[2] == second[2] == "master"]

    def together(self):
        """For how many seconds two nodes were masters at once, by looks before and after."""
        nodes = self.lab.stores
        pairs = [(one, other) for place, one in enumerate(nodes) for other in nodes[place + 1 :]]
        return sum(max(0.0, min(a[1], b[1]) - max(a[0], b[0])) for one, other in pairs for a in self.spans(one) for b in self.spans(other))

    def masters(self):
        """The nodes that were masters, one after another."""
        found = sorted((span[0], node) for node in self.lab.stores for span in self.spans(node))
        return [node for place, (_, node) in enumerate(found) if place == 0 or node != found[place - 1][1]]


class Writer(Beside):
    """A client that adds numbers to a set of the master all the time, and asks a Sentinel anew where a write isn't acknowledged. Between two writes it waits for
    `pause` seconds."""

    def __init__(self, lab, pause=0.0):
        self.lab, self.acknowledged, self.longest, self.pause, self.gaps, self.last = lab, [], 0.0, pause, [], time.monotonic()
        super().__init__(self._write)

    def _write(self):
        line = node = None
        number = 0
        while self.goes_on:
            if line is None and (node := self.lab.told(random.choice(running(self.lab) or self.lab.sentinels))):
                line = Line(self.lab, node)
            if line and line.ask("SADD", "numbers", str(number)) in (0, 1):
                self._keep(number, node)
                number += 1
                if self.pause:
                    time.sleep(self.pause)
                continue
            if line:
                line.close()
            line = None
            time.sleep(0.01)
        if line:
            line.close()

    def _keep(self, number, node):
        self.acknowledged.append((number, node))
        now = time.monotonic()
        self.longest = max(self.longest, now - self.last)
        if now - self.last > PAUSED:
            self.gaps.append((self.last, now))
        self.last = now

    def pauses(self, since=0.0):
        """The seconds of each time since then for which no write was acknowledged, the one that lasts still too."""
        now = time.monotonic()
        found = [*self.gaps, *([(self.last, now)] if now - self.last > PAUSED else [])]
        return [end - max(begin, since) for begin, end in found if end > since]

    def lost(self, but=None):
        """How many numbers were acknowledged, but by this node, that the master doesn't have, once all is well."""
        found = netlab.ask((self.lab.address(agreed(self.lab)), netlab.PORT), "SMEMBERS", "numbers", timeout=10)
        return len({str(number) for number, node in self.acknowledged if node != but} - set(found or []))


# --- a round ---


def play(case, words):
    """One round of a case, in a lab of its own: what was seen, and its judge; none where the lab didn't stand."""
    lab = netlab.Lab(**words)
    try:
        if not counts.check("the lab stands", lab.begin()):
            return "the lab didn't stand", None
        judge = Judge(lab)
        judge.pause(WARM)
        seen = case(lab, judge)
        judge.stood = judge.beside.end()
        judge.count_leaders()
        counts.check("no password in a log", not lab.password or not any(lab.password in lab.log(name) for name in lab.sentinels))
        # (a machine that stands still for 2 s puts each Sentinel in TILT, whose 30 s are in what was seen then)
        return (seen if judge.longest < SLOW else f"{seen} (the check itself took {judge.longest:.1f} s to look once)"), judge
    finally:
        lab.end()
