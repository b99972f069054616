"""Machines with a systemd of their own: containers of systemd-nspawn over the root of a Debian, all on one bridge, for checks of units, users, packages and reboots.

A check that uses them calls `enter()` first, as root: it makes the root by debootstrap, unless the caller names one, and starts the check anew in namespaces of mounts and networks.
"""
import contextlib
import os
import shutil
import signal
import subprocess
import sys
import tempfile

import common
import disks

MIRROR = "http://deb.debian.org/debian"
GROUPS = [it for it in ("/sys/fs/cgroup/systemd", "/sys/fs/cgroup/unified", "/sys/fs/cgroup") if os.path.exists(f"{it}/cgroup.procs")]
# The address stands before any unit that listens at it, also after a reboot.
NETWORK = """[Unit]
DefaultDependencies=no
Before=network.target redis-server.service
[Service]
Type=oneshot
RemainAfterExit=yes
ExecStart=/bin/sh -c "ip addr replace ADDRESS dev host0; ip link set host0 up; ip link set lo up"
[Install]
WantedBy=multi-user.target
"""
# `ssh HOST WORDS` of a check whose folder LAB has the process of the container in HOST.pid: it waits until the machine is up.
SSH = """#!/bin/bash
host=$1; shift
for try in $(seq 100); do
  [ -e LAB/$host.pid ] || exit 255
  inner=$(cat /proc/$(cat LAB/$host.pid)/task/*/children 2> /dev/null)
  [ -n "$inner" ] && nsenter -t ${inner%% *} --mount --net --pid --root -- /bin/systemctl is-active -q multi-user.target 2> /dev/null && break
  sleep 0.3
done
exec nsenter -t ${inner%% *} --mount --uts --ipc --net --pid --root --wd -- env -i HOME=/root PATH=/usr/local/sbin:/usr/local/bin:/usr/sbin:/usr/bin:/sbin:/bin bash -c "$*"
"""


def lacks(*names):
    """Ends the check with status 2 where it isn't root, or one of these commands isn't there."""
    own = os.path.relpath(os.path.realpath(sys.argv[0]), common.TOP)
    if missing := [it for it in names if not shutil.which(it)]:
        sys.exit(print(f"{own} needs {' and '.join(missing)} here: apt-get install systemd-container debootstrap", file=sys.stderr) or 2)
    if os.geteuid() != 0:
        sys.exit(print(f"{own} needs root here", file=sys.stderr) or 2)


def debian_in(room, packages):
    """Makes the root of a Debian with these packages, and gives its path."""
    root = f"{room}/debian"
    words = ["debootstrap", "--variant=minbase", *([f"--include={packages}"] if packages else []), "bookworm", root, MIRROR]
    done = subprocess.run(words, stdin=subprocess.DEVNULL, stdout=subprocess.PIPE, stderr=subprocess.STDOUT, text=True)
    if done.returncode:
        sys.exit(print(f"a Debian is needed: debootstrap says {done.stdout[-300:]}", file=sys.stderr) or 2)
    return root


def enter(root, packages):
    """Starts the check anew, in namespaces where it may make networks and mount, and with which all that it started ends; with `--root` and the path of a Debian, where none is named."""
    lacks("systemd-nspawn", "debootstrap")
    if disks.INSIDE not in os.environ:
        signal.signal(signal.SIGTERM, lambda *_: sys.exit("stopped"))
        spaces = ["--mount", "--net", "--pid", "--fork", "--mount-proc", "--kill-child"]
        own = ["unshare", *spaces, sys.executable, os.path.realpath(sys.argv[0]), *sys.argv[1:]]
        how = {"env": {**os.environ, disks.INSIDE: "1"}, "check": False}
        if root:
            sys.exit(subprocess.run(own, **how).returncode)
        # (it is fetched before the network is this check's own)
        room = tempfile.mkdtemp(prefix="sentinel-group-root-")
        try:
            sys.exit(subprocess.run([*own, "--root", debian_in(room, packages)], **how).returncode)
        finally:
            shutil.rmtree(room, ignore_errors=True)
    subprocess.run(["mount", "--make-rshared", "/"], check=True)
    os.makedirs("/run/netns", exist_ok=True)
    disks.mount_memory("/run/netns", "1m")


class Container:
    """A machine below a folder, whose root is its own over that of a Debian. It is on the bridge br0."""

    def __init__(self, folder, debian, name, address):
        self.folder, self.root, self.name, self.process = folder, f"{folder}/root", name, None
        self.groups = [f"{it}/sentinel-group-{os.getpid()}-{name}" for it in GROUPS]
        os.mkdir(folder)
        disks.mount_memory(folder, "800m")
        for part in ("up", "work", "root"):
            os.mkdir(f"{folder}/{part}")
        subprocess.run(["mount", "-t", "overlay", "overlay", "-o", f"lowerdir={debian},upperdir={folder}/up,workdir={folder}/work", self.root], check=True)
        units = f"{self.root}/etc/systemd/system"
        os.makedirs(f"{units}/multi-user.target.wants", exist_ok=True)
        with open(f"{units}/lab-net.service", "w", encoding="ascii") as out:
            out.write(NETWORK.replace("ADDRESS", address))
        os.symlink("../lab-net.service", f"{units}/multi-user.target.wants/lab-net.service")

    def start(self, pid_file):
        """Boots it, in groups of processes of its own, and again when it reboots; the file gets the process that runs it now."""
        words = ["systemd-nspawn", "-q", "-D", self.root, "--boot", "--network-bridge=br0", "--register=no", "--keep-unit", f"--machine={self.name}"]
        own = "; ".join(f"mkdir -p {it} && echo $$ > {it}/cgroup.procs" for it in self.groups)
        # (it ends with 133 where a unit is to start it anew)
        script = f"{own}; while {' '.join(words)} & echo $! | tee {self.folder}/runs > {pid_file}; wait $!; [ $? = 133 ]; do :; done"
        with open(f"{self.folder}/log", "wb") as log:
            self.process = subprocess.Popen(["bash", "-c", script], stdin=subprocess.DEVNULL, stdout=log, stderr=log)
        common.wait_for(lambda: os.path.getsize(pid_file) > 0, 60)

    def kill(self):
        """It is off at once."""
        if self.process and self.process.poll() is None:
            self.process.kill()
            self.process.wait()
            with open(f"{self.folder}/runs", encoding="ascii") as text:
                runs = int(text.read())
            inner = subprocess.run(f"cat /proc/{runs}/task/*/children", shell=True, stdout=subprocess.PIPE, stderr=subprocess.DEVNULL, check=False, text=True).stdout.split()
            for pid in [*inner, runs]:
                with contextlib.suppress(ProcessLookupError):
                    os.kill(int(pid), signal.SIGKILL)

    def end(self):
        self.kill()
        subprocess.run(["umount", "-l", self.root, self.folder], check=False)
        # (a group of processes can't go before the last of them did)
        common.wait_for(lambda: all(is_gone(it) for it in self.groups), 20)


def is_gone(group):
    """Removes a group of processes with those below it, and tells whether nothing of it is left."""
    for at, _, _ in os.walk(group, topdown=False):
        try:
            os.rmdir(at)
        except OSError:
            return False
    return True
