"""Small file systems in memory, for checks that fill a disk, and the namespace in which such a check may mount them; and an fsync that is slow."""
import os
import subprocess
import sys

INSIDE = "CHECK_INSIDE"
HELD = 3_600_000  # milliseconds of an fsync that goes on once `set_fsync` says 0
SLOW_FSYNC = r"""
#define _GNU_SOURCE
#include <dlfcn.h>
#include <fcntl.h>
#include <stdio.h>
#include <stdlib.h>
#include <time.h>
#include <unistd.h>

static long told_millis(void) {
    long millis = 0;
    FILE *told = fopen(getenv("FSYNC_MS"), "r");
    if (told) {
        if (fscanf(told, "%ld", &millis) != 1) millis = 0;
        fclose(told);
    }
    return millis;
}

static long now_millis(void) {
    struct timespec now;
    clock_gettime(CLOCK_MONOTONIC, &now);
    return now.tv_sec * 1000 + now.tv_nsec / 1000000;
}

/* adds a line with how long an fsync took to the file beside the one that FSYNC_MS names */
static void note(long millis) {
    char path[4096];
    snprintf(path, sizeof path, "%s.done", getenv("FSYNC_MS"));
    int done = open(path, O_WRONLY | O_APPEND | O_CREAT, 0600);
    if (done >= 0) {
        if (dprintf(done, "%ld\n", millis) < 0) abort();
        close(done);
    }
}

/* fsync, after as many milliseconds as stand in the file that FSYNC_MS names, which is looked at meanwhile: with 0 it goes on at once */
int fsync(int file) {
    long began = now_millis(), left;
    while ((left = began + told_millis() - now_millis()) > 0) usleep(1000 * (left < 20 ? left : 20));
    int result = ((int (*)(int))dlsym(RTLD_NEXT, "fsync"))(file);
    note(now_millis() - began);
    return result;
}
"""


def enter_namespaces(*kinds):
    """Starts the script anew, as root of namespaces of its own: of users, and of these kinds besides, as `mount`. `unshare` is needed."""
    if INSIDE not in os.environ:
        words = ["unshare", "--map-root-user", *(f"--{kind}" for kind in kinds), sys.executable, os.path.realpath(sys.argv[0]), *sys.argv[1:]]
        os.execvpe(words[0], words, {**os.environ, INSIDE: "1"})


def mount_memory(folder, size):
    """Mounts a file system in memory at a folder, of a size as `64k`; ends the check with status 2 where it may not."""
    done = subprocess.run(["mount", "-t", "tmpfs", "-o", f"size={size}", "disk", folder], stderr=subprocess.PIPE, text=True)
    if done.returncode:
        print(f"{sys.argv[0]} needs the right to mount a file system in memory: {done.stderr.strip()}", file=sys.stderr)
        sys.exit(2)


class Disk:
    """A small file system at a folder, which can be filled."""

    def __init__(self, folder):
        self.folder, self.filler = folder, os.path.join(folder, "filler")
        mount_memory(folder, "64k")

    def fill(self):
        with open(self.filler, "wb", buffering=0) as out:
            try:
                while out.write(bytes(4096)):
                    pass
            except OSError:
                pass  # it is full

    def make_room(self):
        if os.path.exists(self.filler):
            os.remove(self.filler)

    def allow_writes(self, are_allowed):
        """Has the file system take writes, or be read alone: then one with the same files, which is read alone, is mounted above it. (It can't be remounted itself while a lock
        is open.)"""
        if are_allowed:
            subprocess.run(["umount", self.folder], check=True)
            return
        texts = {}
        for name in os.listdir(self.folder):
            with open(os.path.join(self.folder, name), "rb") as text:
                texts[name] = text.read()
        mount_memory(self.folder, "64k")
        for name, text in texts.items():
            with open(os.path.join(self.folder, name), "wb") as out:
                out.write(text)
        subprocess.run(["mount", "-o", "remount,ro", self.folder], check=True)

    def end(self):
        subprocess.run(["umount", self.folder], check=True)


# --- slow disks ---


def built_fsync(folder):
    """The library with the slow fsync. It needs `cc`."""
    source, made = os.path.join(folder, "fsync.c"), os.path.join(folder, "fsync.so")
    with open(source, "w", encoding="utf-8") as out:
        out.write(SLOW_FSYNC)
    subprocess.run(["cc", "-shared", "-fPIC", "-o", made, source, "-ldl"], check=True)
    return made


def with_fsync(library, told):
    """The environment of a program whose fsyncs take as long as the file at `told` says."""
    # (of a program with an address sanitizer, which wants to be the first library)
    return {**os.environ, "LD_PRELOAD": library, "FSYNC_MS": told, "ASAN_OPTIONS": "verify_asan_link_order=0"}


def fsyncs_done(told):
    """How many milliseconds each fsync took that is done."""
    if not os.path.exists(told + ".done"):
        return []
    with open(told + ".done", encoding="ascii") as text:
        return [int(line) for line in text if line.endswith("\n")]


def set_fsync(told, millis):
    """Each fsync takes this many milliseconds from now on, also one that waits. A store makes two."""
    with open(told + ".new", "w", encoding="utf-8") as out:
        out.write(str(millis))
    os.rename(told + ".new", told)
