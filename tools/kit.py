"""What the scripts of this folder share: rt's own code, the repository's crates, and the programs that are kept in out/.

No command of rt builds a crate's libraries side by side, or keeps a program that isn't proved, so that is done by rt's own code. What is called
of it is of kits 13b and 13f; the first keeps nothing of what its gate passed. Called with words, as `tools/kit.py run`, it is `rt` with each sum taken once:
in an upper crate rt of kit 13b takes ten minutes for them.
"""
import contextlib
import copy
import fcntl
import functools
import glob
import hashlib
import importlib.machinery
import importlib.util
import json
import os
import pathlib
import queue
import re
import shutil
import signal
import subprocess
import sys
import threading
import time

import edits

TOP = os.path.dirname(os.path.dirname(os.path.realpath(__file__)))
OUT = f"{TOP}/out"
PROGRAM = "sentinel_group"
# How much nicer whatever isn't of the longest chain is.
SIDE = 10
# How many programs of each kind stay, the newest, so that whoever goes back to earlier sources finds theirs.
STAY = 4


def load():
    """rt's own code, as a module, made ready to run commands that end when this process ends."""
    path = shutil.which("rt")
    if not path:
        sys.exit('rt, the command of the Rattle kit, is not on PATH: README.md tells of it under "Build it"')
    loader = importlib.machinery.SourceFileLoader("rt_itself", os.path.realpath(path))
    rt = importlib.util.module_from_spec(importlib.util.spec_from_loader("rt_itself", loader))
    sys.modules["rt_itself"] = rt
    loader.exec_module(rt)
    # (its first call sets a signal's handler, which only the main thread may)
    rt.rtlib.guarded()
    sum_once(rt.rtlib.Crate)
    rt.in_lanes = lambda tasks: Lanes(rt, tasks).run()
    os.chdir(TOP)
    return rt


def sum_once(crate):
    """Has crates remember their sums, which kit 13b takes anew for each way that leads down to one. A file that changes meanwhile is not seen."""
    plain, sums = crate.stamp, {}

    def stamp(self):
        key = self.folder, repr((self.said, self.has_c))
        if key not in sums:
            sums[key] = plain(self)
        return sums[key]

    crate.stamp = stamp


def crates_of(rt):
    """The repository's crates, lowest first."""
    return sorted(rt.rtlib.crates_below(TOP), key=lambda it: len(it.below()))


def program_of(crates):
    """The crate of the program."""
    return next(it for it in crates if it.name == PROGRAM)


def log_of(crate):
    """The file for what the prover says of a crate."""
    os.makedirs(f"{OUT}/log", exist_ok=True)
    return f"{OUT}/log/{crate.name}.log"


def refusal(rt, crate, crates):
    """Why the crate's text is refused, if it is: rt ci's own tests of it, which print what they find."""
    code = rt.rtlib.code_of(crate.folder)
    beyond = [it for it, words in rt.REACHES.items() if it not in rt.handles_of(TOP) and re.search(words, code)]
    if beyond or re.search(rt.RENAMES, code) or re.search(rt.IGNORED, code):
        return f"it reaches past HANDLES ({', '.join(beyond)}), renames std, or ignores a test"
    try:
        rt.rtlib.stop_on_links(crate.folder)
        rt.rtlib.stop_on_unread(crate.folder, crates)
        rt.rtlib.stop_on_text(crate, "verdict")
        rt.stop_on_words(crate)
    except SystemExit:
        return "its words are refused"
    return "it is not in the layout" if rt.rtlib.fmt(crate.folder, "--check", crate.out) else None


def place_of_sources():
    """The name under which a program of the sources as they are is kept."""
    return subprocess.run([f"{TOP}/tools/sum_of_sources"], stdin=subprocess.DEVNULL, stdout=subprocess.PIPE, check=True, text=True).stdout.strip()


def kept(kind):
    """The program of this kind, proved or unproved, that is made from the sources as they are, or None."""
    return next(iter(glob.glob(f"{OUT}/{kind}/{place_of_sources()}*/{PROGRAM}")), None)


def git(*words):
    """What git says in the repository, or nothing where it is none, or git isn't there."""
    if not shutil.which("git"):
        return ""
    how = {"stdin": subprocess.DEVNULL, "stdout": subprocess.PIPE, "stderr": subprocess.DEVNULL, "text": True}
    return subprocess.run(["git", "-C", TOP, *words], check=False, **how).stdout.strip()


def commit():
    """The commit of the sources, with -dirty where they differ from it, or none."""
    if os.path.realpath(git("rev-parse", "--show-toplevel") or "/") != TOP:
        return "none"
    name = git("rev-parse", "HEAD")
    return (name or "none") + ("-dirty" if name and git("status", "--porcelain", "--", "crates", "crates.txt") else "")


def record(program, kind, place):
    """The record that stands beside a program, by which its --version says what it is: a line of the commit, the kit, and whether it is proved; and its sum
    and length. A program of other bytes doesn't go by it."""
    with open(program, "rb") as data:
        words = data.read()
    told = f"{PROGRAM}, commit {commit()}, kit {place.partition('.')[2] or 'unknown'}, {'proved' if kind == 'proved' else 'not proved'}"
    return f"{told}\nsha256 {hashlib.sha256(words).hexdigest()} {len(words)}\n"


def keep(kind, place, made):
    """Keeps a program under the name of its sources, with its record. It is written apart and then renamed, so that nobody meets half of it."""
    new = f"{OUT}/{kind}/new"
    shutil.rmtree(new, ignore_errors=True)
    os.makedirs(new)
    shutil.copyfile(made, f"{new}/{PROGRAM}")
    os.chmod(f"{new}/{PROGRAM}", 0o755)
    with open(f"{new}/{PROGRAM}.version", "w", encoding="utf-8") as out:
        out.write(record(made, kind, place))
    # (of the same sources there may be one that was made before)
    shutil.rmtree(f"{OUT}/{kind}/{place}", ignore_errors=True)
    os.rename(new, f"{OUT}/{kind}/{place}")
    for it in sorted(glob.glob(f"{OUT}/{kind}/*/"), key=os.path.getmtime, reverse=True)[STAY:]:
        shutil.rmtree(it)


@contextlib.contextmanager
def in_turn(kind):
    """Waits while another command makes a program of this kind."""
    os.makedirs(f"{OUT}/{kind}", exist_ok=True)
    with open(f"{OUT}/{kind}/lock", "w", encoding="utf-8") as lock:
        try:
            fcntl.flock(lock, fcntl.LOCK_EX | fcntl.LOCK_NB)
        except BlockingIOError:
            print(f"{PROGRAM}: another command makes the same program; waiting for it to end", file=sys.stderr, flush=True)
            fcntl.flock(lock, fcntl.LOCK_EX)
        yield


@contextlib.contextmanager
def progress(tell):
    """Shows what `tell` says of long work, each second anew in one line, where standard error is a terminal. It gets the seconds since the work began."""
    began, is_over = time.monotonic(), threading.Event()

    def show():
        while not is_over.wait(1):
            width = shutil.get_terminal_size().columns - 1
            print(f"\r\033[K{tell(int(time.monotonic() - began))[:width]}", end="", file=sys.stderr, flush=True)

    shown = threading.Thread(target=show, daemon=True)
    if sys.stderr.isatty():
        shown.start()
    try:
        yield
    finally:
        is_over.set()
        if shown.is_alive():
            shown.join()
            print("\r\033[K", end="", file=sys.stderr, flush=True)


def side_by_side(rt, crates, make):
    """Makes each crate once those below it are made, as many at a time as there is room for, those with the longest chain of others above first, and
    says what came of each and how many are left. `make` gets a crate and how many jobs it may use, and tells how the crate came to stand, or
    None. Returns whether all stand."""
    # (Python's own handler would wait for the commands that threads have begun)
    signal.signal(signal.SIGINT, signal.SIG_DFL)
    left, begun, saying = {it.name for it in crates}, set(), threading.Lock()

    def task(crate, given, jobs):
        lacking = [it.name for it in crate.below() if not given[it.name, "proof"]]
        began = time.time()
        begun.add(crate.name)
        came = None if lacking else make(crate, jobs)
        with saying:
            left.discard(crate.name)
            why = f"not tried, since {lacking[0]} is not proved" if lacking else f"NOT PROVED, see {os.path.relpath(log_of(crate), TOP)}"
            print(f"{crate.name}: {came or why}, {time.time() - began:.0f} s; {len(left)} of {len(crates)} left", flush=True)
        return came is not None

    tasks = {}
    for crate in crates:
        # (rt gives what it calls a proof the processors that nothing else waits for)
        below = [(it.name, "proof") for it in crate.below()]
        tasks[crate.name, "proof"] = (below, crate.count(rb"\n"), rt.need(crate), functools.partial(task, crate))
    with progress(lambda seconds: f"{seconds} s, {len(left)} of {len(crates)} left, now {', '.join(sorted(begun & left))}"):
        return all(rt.in_lanes(tasks).values())


def chains_of(tasks):
    """Of each task the work of the longest chain that begins with it, in lines."""
    # (a task comes after those that it waits for)
    chains = dict.fromkeys(tasks, 0)
    for key in reversed([*tasks]):
        before, work, _, _ = tasks[key]
        chains[key] += work
        for it in before:
            chains[it] = max(chains[it], chains[key])
    return chains


class Lanes:
    """Tasks that run side by side, as by rt's `in_lanes`, which gives each proof one job where others are ready: then the longest chain takes most of the time,
    while processors have nothing to do.

    Here the task at which the longest chain begins doesn't wait for a processor, and gets a job for each, four at most. It counts as one, since much of a proof is done
    by one job, and the others are nicer than it. By the memory that rt reckons a proof takes half, and an eighth more for each further job: that is more than
    any was seen to take, as measured on 1 December 2026."""

    def __init__(self, rt, tasks):
        number = os.environ.get("RT_JOBS", "")
        self.rt, self.memory = rt, 0.85 * rt.free()
        self.processors = int(number) if number.isdigit() and int(number) else rt.processors()
        self.tasks, self.chains = tasks, chains_of(tasks)
        self.left, self.running, self.given = sorted(tasks, key=lambda it: -self.chains[it]), {}, {}
        self.ended = queue.SimpleQueue()

    def run(self):
        """Runs all of them, and returns what each gave."""
        while self.left or self.running:
            self.begin_all()
            key, given, error = self.ended.get()
            del self.running[key]
            if error:
                raise error
            self.given[key] = given
        return self.given

    def begin_all(self):
        """Begins each task for which there is room now."""
        ready = [it for it in self.left if all(below in self.given for below in self.tasks[it][0])]
        for at, key in enumerate(ready):
            is_first = all(self.chains[key] >= self.chains[it] for it in self.running)
            idle = self.processors - sum(jobs for jobs, _ in self.running.values())
            most = min(4, self.processors) if is_first else min(2, idle // (len(ready) - at) or 1)
            if idle > 0 or is_first:
                self.begin(key, most, is_first)

    def begin(self, key, most, is_first):
        """Begins a task with so many jobs at most, if there is memory for it, or nothing else runs."""
        # (what others gave back since the first look counts as well)
        self.memory = max(self.memory, 0.85 * self.rt.free())
        room = self.memory - sum(needs for _, needs in self.running.values())
        needs = {jobs: self.tasks[key][2] * (0.5 + 0.125 * (jobs - 1)) for jobs in range(1, most + 1)}
        jobs = max((it for it in needs if needs[it] <= room), default=0 if self.running else 1)
        if jobs:
            self.left.remove(key)
            self.running[key] = 1 if is_first else jobs, needs[jobs]
            threading.Thread(target=self.work, args=(key, jobs, is_first), daemon=True).start()

    def work(self, key, jobs, is_first):
        """Does a task in a thread of its own, whose commands are as nice as it."""
        given = error = None
        if not is_first:
            os.setpriority(os.PRIO_PROCESS, threading.get_native_id(), min(19, os.nice(0) + SIDE))
        try:
            given = self.tasks[key][3](self.given, jobs)
        except BaseException as it:  # (the caller's thread raises it)
            error = it
        self.ended.put((key, given, error))


def over_built(words, crate, trees):
    """The words of a check that takes libraries as source, with each that stands in one of these trees, made of the same files as here over the same
    libraries, as it was built there."""
    found = {}
    for it in crate.below():
        for tree in trees:
            made = f"{tree}/crates/{it.name}/out/rlib"
            if os.path.exists(f"{made}/stamp") and pathlib.Path(f"{made}/stamp").read_text(encoding="utf-8") == it.stamp():
                found[it.name] = f"{made}/{it.name}.rlib"
    new, rest = [], iter(words)
    for word in rest:
        if word != "--lib":
            new.append(word)
            continue
        source = next(rest)
        name = source.split(":")[0]
        if name in found:
            new += ["--extern", f"{name}={found[name]}", "-L", f"dependency={os.path.dirname(found[name])}"]
        else:
            new += [word, source]
    return new


class Libraries:
    """Has libraries stand in their crates' out/: those that the gate kept on this machine are taken, and the others are built. The gate's store is
    only read."""

    def __init__(self, rt, crates):
        self.rt = rt
        rt.Crate.allowed = rt.handles_of(TOP)
        self.gate = None
        if hasattr(rt, "Kept"):
            # (as `rt lib`, over what other copies of the repository have built)
            rt.share_work(True)
            self.gate = rt.Kept(crates)

    def make(self, crate, jobs):
        """Has the crate's library stand, if it can be proved, and tells how it came there."""
        with contextlib.ExitStack() as held:
            for it in self.rt.rtlib.lock([crate]):
                held.callback(os.close, it)
            if crate.is_built():
                return "stands"
            if self.is_given(crate):
                return "taken from what the gate kept"
            crate = copy.copy(crate)
            crate.out = held.enter_context(open(log_of(crate), "w", encoding="utf-8"))
            return "proved" if crate.build_rlib(["--jobs", str(jobs)], anew=False) == 0 else None

    def is_given(self, crate):
        """Takes the library that the gate made of the same files over the same libraries, if it kept it, and tells whether it did. The stamp, by which
        rt knows a library that is up to date, is this function's: one that is made of the same files is."""
        if not self.gate or not glob.glob(f"{self.gate.at}/proof-{crate.name}-*"):
            return False
        for it in crate.below():
            if it.name not in self.gate.rlibs:
                self.gate.is_built(it)
        key = self.gate.key(crate)
        if not os.path.isdir(self.gate.place(crate, False, key)):
            return False
        shutil.rmtree(f"{crate.folder}/out/rlib", ignore_errors=True)
        if not self.gate.give(crate, False, key):
            return False
        with open(f"{crate.folder}/out/rlib/stamp", "w", encoding="utf-8") as out:
            out.write(crate.stamp())
        return True

    def kept_program(self, program):
        """The program that the gate made of the same sources, if it kept it, or None. Its libraries needn't stand for that: the list of a kept library's
        files gives the sum by which those above it were kept."""
        if not self.gate:
            return None
        standing, self.gate.rlibs = self.gate.rlibs, {}
        try:
            for crate in [*program.below(), program]:
                place = self.gate.place(crate, False, self.gate.key(crate))
                with open(f"{place}/made.json", encoding="utf-8") as it:
                    files = [(path, sum) for path, sum in json.load(it)["files"]]
                self.gate.rlibs[crate.name] = hashlib.sha256(repr(files).encode()).hexdigest()
            made, wanted = next((f"{place}/{number}", sum) for number, (path, sum) in enumerate(files) if path == program.name)
            return made if self.rt.rtlib.sum_of(made) == wanted else None
        except (OSError, ValueError, KeyError, StopIteration):
            return None
        finally:
            self.gate.rlibs = standing


def main():
    here, rt = os.getcwd(), load()
    os.chdir(here)
    # (kit 13f keeps what came of an edit by its own trial)
    if not hasattr(rt, "Kept"):
        rt.must_fail_all = edits.gate_trial(rt)
    sys.exit(rt.main(sys.argv[1:]))


if __name__ == "__main__":
    main()
