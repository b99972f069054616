"""The program that the scripts of this folder measure: the proved one, or one without an address sanitizer that SENTINEL_GROUP names."""
import os
import subprocess
import sys
import time

TOP = os.path.dirname(os.path.dirname(os.path.abspath(__file__)))
sys.path.insert(0, os.path.join(TOP, "tools"))
sys.dont_write_bytecode = True
import kit

PROGRAM = os.environ.get("SENTINEL_GROUP") or kit.kept("proved") or os.path.join(kit.OUT, "proved", kit.PROGRAM)


def reason_against(path):
    """Why the program at the path can't be measured; none where it can."""
    if not os.access(path, os.X_OK):
        return f"{os.path.relpath(path, TOP)} isn't there"
    with open(path, "rb") as program:
        if b"__asan_init" in program.read():
            return f"{os.path.relpath(path, TOP)} is an unproved program"
    return None


def stop_unless_proved():
    """Ends the script with status 1 and the reason where there is no proved program."""
    reason = reason_against(PROGRAM)
    if reason:
        sys.exit(f"{os.path.basename(sys.argv[0])}: {reason}. Only the proved program is measured, since an unproved one runs under a "
                 "sanitizer and is hundreds of times slower. ./sentinel_group prove makes it.")


def play(folder, story, confs, *words):
    """What a replay of these lines over the conf files prints, and the seconds that it took."""
    path = os.path.join(folder, "story.scenario")
    with open(path, "w") as out:
        out.write("\n".join(story) + "\n")
    before = time.monotonic()
    done = subprocess.run([PROGRAM, "replay", *words, path, *confs], stdout=subprocess.PIPE, check=True)
    return done.stdout.decode(), time.monotonic() - before


def least_seconds(folder, story, confs, runs):
    """The seconds of the fastest of so many replays of these lines."""
    return min(play(folder, story, confs)[1] for _ in range(runs))
