"""Real redis-servers and Sentinels, each in a network namespace of its own, for checks that cut the network and fill disks.

All namespaces hang on one bridge. A cut from one node to another has the first one send to a hardware address that nobody has, so its packets are lost in
silence; the other direction stays. The check itself asks from a namespace that no cut touches. Each Sentinel's file is on a file system of 64 KB of its own.

A check that uses it calls `enter()` first, which starts it anew as root of namespaces of its own; no right of the system is needed for that.
"""
import ctypes
import os
import shutil
import signal
import socket
import subprocess
import tempfile
import threading
import time

import common
import disks
from common import WATCH

NET = "10.77.0"
NOBODY = "02:00:00:00:00:99"
CLONE_NEWNET = 0x40000000
PORT, SENTINEL_PORT = 6379, 26379
OBSERVER = "obs"
STANDS = 120  # seconds for a start, which takes one or two where there is no other work
# Where the logs of each lab are kept, with the time of each line, where that is wanted.
LOGS = os.environ.get("NETLAB_LOGS")


def enter():
    """Starts the check anew, in namespaces where it may make networks and mount disks."""
    disks.enter_namespaces("mount", "net")
    # (`ip netns exec` has a mount namespace of its own, which sees what is mounted later only so)
    subprocess.run(["mount", "--make-rshared", "/"], check=True)
    disks.mount_memory("/run", "16m")


def ip(*words, namespace=None, quiet=False):
    """Runs `ip`, in a namespace where one is named."""
    words = ["ip", *(["-n", namespace] if namespace else []), *words]
    done = subprocess.run(words, stdout=subprocess.DEVNULL, stderr=subprocess.PIPE, text=True)
    if done.returncode and not quiet:
        raise RuntimeError(f"{' '.join(words)}: {done.stderr.strip()}")


def enter_network(handle):
    """Has this process be in the network namespace of the handle."""
    libc = ctypes.CDLL(None, use_errno=True)
    if libc.setns(handle, CLONE_NEWNET):
        raise OSError(ctypes.get_errno(), "setns")


def read_value(reader):
    """A value as RESP2 spells it; `EOFError` at the end."""
    line = reader.readline()
    if not line:
        raise EOFError
    kind, rest = line[:1], line[1:-2]
    if kind in b"+-":
        return (kind + rest).decode()
    size = int(rest)
    if kind == b":":
        return size
    if size < 0:
        return None
    if kind == b"$":
        return reader.read(size + 2)[:-2].decode(errors="replace")
    return [read_value(reader) for _ in range(size)]


def ask(address, *words, password=None, timeout=1.0):
    """What is answered on a connection of its own; None where nothing is."""
    try:
        with socket.create_connection(address, timeout=timeout) as connection, connection.makefile("rb") as reader:
            if password:
                connection.sendall(common.command("AUTH", password))
                read_value(reader)
            connection.sendall(common.command(*words))
            return read_value(reader)
    except (OSError, EOFError, ValueError):
        return None


class Lab:
    """A master d0 with replicas d1 .., and Sentinels s0 .. of a kind each: `ours` or `redis`. `own` has the quorum and down-after of single Sentinels, by
    place; replicas know the master by the name `replicaof`, where there is one; `has_fsync` is whether stores can be made slow, which needs `cc`. The file of each
    Sentinel also has `lines`, and the one at a place those of `more`, and that of each data node `store_lines`; `port_password` is the one that its port
    wants. `priorities` has those of replicas, by node. With `on_disk` the Sentinels' files are on the system's own disk, in place of memory."""

    def __init__(
        self, kinds, nodes=3, after=2000, password=None, quorum=None, timeout=10_000, own=None, replicaof=None, has_fsync=False, lines=(), more=None, port_password=None, priorities=None,
        store_lines=(), on_disk=False,
    ):
        self.kinds, self.after, self.password, self.timeout = list(kinds), after, password, timeout
        self.quorum, self.own_settings, self.replicaof = quorum or len(kinds) // 2 + 1, own or {}, replicaof
        self.lines, self.more, self.port_password = list(lines), more or {}, port_password
        self.priorities, self.store_lines, self.on_disk = priorities or {}, list(store_lines), on_disk
        self.stores, self.sentinels = [f"d{number}" for number in range(nodes)], [f"s{place}" for place in range(len(kinds))]
        self.names = [*self.stores, *self.sentinels, OBSERVER]
        self.folder = tempfile.mkdtemp(prefix="netlab-")
        self.processes, self.disks, self.ended, self.still, self.began = {}, {}, {}, set(), time.monotonic()
        self.own = os.open("/proc/self/ns/net", os.O_RDONLY)
        self.fsync = disks.built_fsync(self.folder) if has_fsync else None
        self._make_network()
        if replicaof:
            self._name_master(replicaof)

    # --- the network ---

    def address(self, name):
        return f"{NET}.{self.names.index(name) + 1}"

    def _make_network(self):
        ip("link", "add", "br0", "type", "bridge")
        ip("link", "set", "br0", "up")
        for place, name in enumerate(self.names):
            ip("netns", "add", name)
            ip("link", "add", f"v{place}", "type", "veth", "peer", "name", "eth0", "netns", name)
            ip("link", "set", f"v{place}", "master", "br0", "up")
            ip("link", "set", "lo", "up", namespace=name)
            ip("addr", "add", f"{self.address(name)}/24", "dev", "eth0", namespace=name)
            ip("link", "set", "eth0", "up", namespace=name)
        with open(f"/run/netns/{OBSERVER}", "rb") as observer:
            enter_network(observer.fileno())

    def _name_master(self, name):
        """The system knows the first master by this name, until the check ends."""
        path = f"{self.folder}/hosts"
        with open(path, "w", encoding="ascii") as out:
            out.write(f"127.0.0.1 localhost\n{self.address('d0')} {name}\n")
        subprocess.run(["mount", "--bind", path, "/etc/hosts"], check=True)

    def cut(self, sender, target):
        """What the sender sends to the target is lost from now on."""
        ip("neigh", "replace", self.address(target), "lladdr", NOBODY, "dev", "eth0", "nud", "permanent", namespace=sender)

    def heal(self, sender, target):
        ip("neigh", "del", self.address(target), "dev", "eth0", namespace=sender, quiet=True)

    def part(self, some, others):
        """Cuts two groups of nodes from each other, both ways. Each node's cuts are made at once, and all nodes' beside each other: half a cut lets votes through."""
        self._for_each({**{one: others for one in some}, **{other: some for other in others}}, "replace", "lladdr", NOBODY, "dev", "eth0", "nud", "permanent")

    def join(self, some, others):
        """Heals what `part` cut."""
        self._for_each({**{one: others for one in some}, **{other: some for other in others}}, "del", "dev", "eth0")

    def _for_each(self, targets, what, *words):
        """Has each of these nodes do something with its neighbours, whose names are given."""
        running = []
        for name, others in targets.items():
            batch = subprocess.Popen(["ip", "-n", name, "-force", "-batch", "-"], stdin=subprocess.PIPE, stdout=subprocess.DEVNULL, stderr=subprocess.DEVNULL, text=True)
            batch.stdin.write("".join(" ".join(["neigh", what, self.address(other), *words]) + "\n" for other in others))
            batch.stdin.close()
            running.append(batch)
        for batch in running:
            if batch.wait() and what == "replace":
                raise RuntimeError(f"ip neigh {what} ended with {batch.returncode}")

    def heal_all(self):
        for one in self.names[:-1]:
            for other in self.names[:-1]:
                if one != other:
                    self.heal(one, other)

    # --- the nodes ---

    def start(self, name, *more):
        """Starts a node, a data node with more words of redis-server."""
        words = [*self._server(name), *more] if name in self.stores else self._sentinel(name)
        env = None
        if self.fsync and name in self.sentinels:
            self.slow(name, 0)
            env = disks.with_fsync(self.fsync, self._fsync_of(name))
        words = ["ip", "netns", "exec", name, *words]
        if LOGS:
            self.processes[name] = subprocess.Popen(words, stdin=subprocess.DEVNULL, stdout=subprocess.PIPE, stderr=subprocess.STDOUT, env=env)
            threading.Thread(target=self._keep_lines, args=(name, self.processes[name].stdout), daemon=True).start()
            return
        with open(f"{self.folder}/{name}.log", "ab") as log:
            self.processes[name] = subprocess.Popen(words, stdin=subprocess.DEVNULL, stdout=log, stderr=log, env=env)

    def _keep_lines(self, name, lines):
        """Writes what a node says to its log, each line after the seconds since the lab was made."""
        with open(f"{self.folder}/{name}.log", "ab", buffering=0) as log:
            for line in lines:
                log.write(b"%.3f " % (time.monotonic() - self.began) + line)

    def _fsync_of(self, name):
        return f"{self.folder}/{name}.fsync"

    def slow(self, name, millis):
        """Each fsync of a Sentinel takes this long from now on. A store makes two."""
        disks.set_fsync(self._fsync_of(name), millis)

    def _server(self, name):
        folder = f"{self.folder}/{name}"
        path = f"{folder}/redis.conf"
        if not os.path.exists(path):
            os.mkdir(folder)
            lines = [f"port {PORT}", f"bind {self.address(name)} 127.0.0.1", "protected-mode no", f"dir {folder}", 'save ""', "repl-diskless-sync-delay 0", *self.store_lines]
            if self.password:
                lines += [f"requirepass {self.password}", f"masterauth {self.password}"]
            if name != "d0":
                lines.append(f"replicaof {self.replicaof or self.address('d0')} {PORT}")
            if name in self.priorities:
                lines.append(f"replica-priority {self.priorities[name]}")
            with open(path, "w", encoding="ascii") as out:
                out.write("\n".join(lines) + "\n")
        return ["redis-server", path]

    def conf_path(self, name):
        return f"{self.folder}/{name}/sentinel.conf"

    def _sentinel(self, name):
        path = self.conf_path(name)
        if not os.path.exists(path):
            os.makedirs(os.path.dirname(path), exist_ok=True)
            if not self.on_disk:
                self.disks[name] = disks.Disk(os.path.dirname(path))
            with open(path, "w", encoding="ascii") as out:
                out.write("\n".join(self._lines(self.sentinels.index(name))) + "\n")
        return [*WATCH, path] if self.kind(name) == "ours" else ["redis-sentinel", path]

    def _lines(self, place):
        own = self.sentinels[place]
        quorum, after = self.own_settings.get(place, (self.quorum, self.after))
        lines = [f"port {SENTINEL_PORT}", f"sentinel announce-ip {self.address(own)}", f"sentinel myid {common.run_id(place)}"]
        if self.kind(own) != "ours":
            lines += [f"dir {self.folder}", "protected-mode no"]
        lines.append(f"sentinel monitor mymaster {self.address('d0')} {PORT} {quorum}")
        lines += [f"sentinel down-after-milliseconds mymaster {after}", f"sentinel failover-timeout mymaster {self.timeout}"]
        if self.password:
            lines.append(f"sentinel auth-pass mymaster {self.password}")
        lines += [f"sentinel known-replica mymaster {self.address(name)} {PORT}" for name in self.stores[1:]]
        if self.port_password:
            lines += [f"requirepass {self.port_password}", f"sentinel sentinel-pass {self.port_password}"]
        lines += [*self.lines, *self.more.get(place, ())]
        others = [(at, name) for at, name in enumerate(self.sentinels) if at != place]
        return lines + [f"sentinel known-sentinel mymaster {self.address(name)} {SENTINEL_PORT} {common.run_id(at)}" for at, name in others]

    def drop_lines(self, name, start):
        """Takes the lines out of a Sentinel's file that begin so."""
        with open(self.conf_path(name), encoding="ascii") as text:
            lines = [line for line in text if not line.startswith(start)]
        with open(self.conf_path(name), "w", encoding="ascii") as out:
            out.writelines(lines)

    def kind(self, name):
        return self.kinds[self.sentinels.index(name)]

    def send(self, name, number):
        """Sends a signal to a node, which `ip netns exec` has become. One that stands still is asked for nothing until it goes on."""
        self.processes[name].send_signal(number)
        if number == signal.SIGSTOP:
            self.still.add(name)
        elif number == signal.SIGCONT:
            self.still.discard(name)

    def kill(self, name):
        process = self.processes.pop(name)
        self.still.discard(name)
        process.send_signal(signal.SIGCONT)
        process.kill()
        process.wait()

    def watch_ends(self):
        """Takes the nodes that ended by themselves out of those that run, and keeps their statuses."""
        for name, process in list(self.processes.items()):
            if process.poll() is not None:
                self.ended[name] = process.returncode
                del self.processes[name]

    # --- what they say ---

    def named(self, address):
        """The node at an address, or by the first master's name, or the address."""
        if address == self.replicaof:
            return "d0"
        return next((name for name in self.names if self.address(name) == address), address)

    def asked(self, name, *words, timeout=1.0):
        """What a Sentinel answers on a connection of its own, after the password where its port wants one; None where it answers nothing."""
        return ask((self.address(name), SENTINEL_PORT), *words, password=self.port_password, timeout=timeout)

    def told(self, name):
        """The node that a Sentinel tells as the master; None where it tells none."""
        found = self.asked(name, "SENTINEL", "GET-MASTER-ADDR-BY-NAME", "mymaster")
        return self.named(found[0]) if isinstance(found, list) and len(found) == 2 else None

    def row(self, name):
        """The fields of the master as a Sentinel tells them; none where it tells nothing."""
        row = self.asked(name, "SENTINEL", "MASTER", "mymaster")
        return dict(zip(row[::2], row[1::2])) if isinstance(row, list) else {}

    def configuration(self, name):
        """The epoch and the node of the configuration that a Sentinel tells; None where it tells none."""
        row = self.row(name)
        return (int(row["config-epoch"]), self.named(row["ip"])) if "config-epoch" in row else None

    def vote(self, name):
        """The epoch and the run id of the last vote that stands in a Sentinel's file; None where there is none."""
        try:
            with open(self.conf_path(name), encoding="ascii") as text:
                words = [line.split() for line in text if line.startswith("sentinel leader-")]
        except OSError:
            return None
        lines = {line[1]: line[3] for line in words if len(line) == 4}
        return (int(lines["leader-epoch"]), lines["leader-id"]) if "leader-id" in lines and "leader-epoch" in lines else None

    def quiet_for(self, node, name):
        """For how many seconds the most recent of a Sentinel's connections to a data node said nothing; None where it has none."""
        found = ask((self.address(node), PORT), "CLIENT", "LIST", password=self.password)
        lines = [dict(word.split("=", 1) for word in line.split() if "=" in word) for line in (found or "").splitlines()]
        ages = [int(line["idle"]) for line in lines if line.get("addr", "").startswith(f"{self.address(name)}:")]
        return min(ages, default=None)

    def role(self, name):
        """`master`, or the node that it follows with the state of its link; None where it says nothing."""
        if name in self.still:
            return None
        found = ask((self.address(name), PORT), "ROLE", password=self.password)
        if not isinstance(found, list):
            return None
        return "master" if found[0] == "master" else (self.named(found[1]), found[3])

    def log(self, name):
        with open(f"{self.folder}/{name}.log", encoding="utf-8", errors="replace") as text:
            return text.read()

    def tilted(self):
        """The Sentinels that are in TILT by what they last said of it, as on a machine that stands still again and again."""
        last = {name: max(self.log(name).rfind("Sentinel ID is"), self.log(name).rfind("-tilt")) for name in self.sentinels}
        return [name for name in self.sentinels if self.log(name).rfind("+tilt") > last[name]]

    def calm(self, seconds=common.LONG):
        """Waits until no Sentinel is in TILT, in which none begins anything; whether that came."""
        return self.wait(lambda: not self.tilted(), seconds) is not None

    def wait(self, test, seconds):
        """How long it took until this was so, in seconds; None where it didn't come."""
        began = time.monotonic()
        while time.monotonic() - began < seconds:
            if test():
                return time.monotonic() - began
            time.sleep(0.02)
        return None

    def begin(self):
        """Starts all, and waits until they stand: whether they do."""
        for name in self.stores:
            self.start(name)
        if self.wait(lambda: all(self.role(name) == ("d0", "connected") for name in self.stores[1:]), STANDS) is None:
            return False
        for name in self.sentinels:
            self.start(name)
        return self.wait(lambda: all(self.told(name) == "d0" for name in self.sentinels), STANDS) is not None

    def end(self):
        """Ends what it started, and the namespaces."""
        for name in list(self.processes):
            self.kill(name)
        enter_network(self.own)
        os.close(self.own)
        for place, name in enumerate(self.names):
            ip("link", "del", f"v{place}", quiet=True)  # (a namespace lets go of its links some time after its end)
            ip("netns", "del", name, quiet=True)
        ip("link", "del", "br0", quiet=True)
        for disk in self.disks.values():
            disk.end()
        if LOGS:
            shutil.copytree(self.folder, f"{LOGS}/{os.path.basename(self.folder)}", ignore=lambda _, names: [it for it in names if not it.endswith(".log")])
        if self.replicaof:
            subprocess.run(["umount", "/etc/hosts"], check=False)
        shutil.rmtree(self.folder, ignore_errors=True)
