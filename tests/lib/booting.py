"""A Debian with systemd as its first process, booted for a test, and what the units of the program
do under it. It runs over an overlay, in name spaces of its own, without a network: what stands
below stays as it is. It needs root."""
import contextlib
import ctypes
import os
import pathlib
import signal
import subprocess
import sys
import tempfile
import time

from packaged import COPIES, OFFICE, part, ran
from serving import Off, expect

PATIENCE = 400  # seconds in which something has to become so
PACKAGES = "/srv"
STOCK = '{"hand":[]}'
FIRST = """
mount --make-rprivate /
mount -t tmpfs tmpfs {over}
mkdir {over}/upper {over}/work {over}/top
mount -t overlay overlay -o lowerdir={root},upperdir={over}/upper,workdir={over}/work {over}/top
cd {over}/top
cp {packages}/* srv/
mount -t proc proc proc
mount --bind proc/sys proc/sys
mount -o remount,ro,bind proc/sys
mount -t sysfs -o ro sysfs sys
mount -t cgroup2 cgroup2 sys/fs/cgroup
mount -t tmpfs -o mode=755 tmpfs dev
mknod -m 666 dev/null c 1 3
mknod -m 666 dev/zero c 1 5
mknod -m 666 dev/full c 1 7
mknod -m 666 dev/random c 1 8
mknod -m 666 dev/urandom c 1 9
mkdir dev/pts dev/shm old
mount -t devpts -o newinstance,ptmxmode=0666 devpts dev/pts
ln -s pts/ptmx dev/ptmx
mount -t tmpfs tmpfs dev/shm
mount -t tmpfs -o mode=755 tmpfs run
mount -t tmpfs tmpfs tmp
pivot_root . old
umount -l /old
exec env -i container=other PATH=/usr/sbin:/usr/bin:/sbin:/bin /lib/systemd/systemd --unit={target}
"""


@contextlib.contextmanager
def group():
    """A control group of this machine for the system, in which nothing else is."""
    places = (pathlib.Path("/sys/fs/cgroup", it) for it in ("unified", ""))
    first = next(it for it in places if (it / "cgroup.procs").exists())
    place = first / f"cayunchis-test-{os.getpid()}"
    place.mkdir()
    try:
        yield place
    finally:
        for folder in sorted(place.rglob("*"), reverse=True):
            if folder.is_dir():
                folder.rmdir()
        place.rmdir()


class System:
    """A system that runs."""

    def __init__(self, process):
        children = pathlib.Path(f"/proc/{process}/task/{process}/children")
        self.first = self.until("a first process", lambda: children.read_text().split())[0]
        self.until("a system that runs", lambda: "running" in self.shell(
            "systemctl is-system-running || true") or "degraded" in self.told)

    def until(self, what, is_so):
        """Waits until something is so."""
        ends = time.monotonic() + PATIENCE
        while time.monotonic() < ends:
            with contextlib.suppress(Off):
                if came := is_so():
                    return came
            time.sleep(0.3)
        raise Off(f"there is no {what} after {PATIENCE} s")

    def shell(self, line, status=0):
        """What a line prints in the system's shell."""
        enter = ("nsenter", "--target", self.first, "--all", "env", "-i", "HOME=/srv",
                 "DEBIAN_FRONTEND=noninteractive", "PATH=/usr/sbin:/usr/bin:/sbin:/bin")
        self.told = ran(*enter, "bash", "-c", f"cd {PACKAGES} && {{ {line}\n}}", status=status)
        return self.told

    def asked(self, port="8080"):
        """The stock that the server shows, once it listens."""
        line = f"curl -fsS --max-time 40 http://127.0.0.1:{port}/stock"
        return self.until("server", lambda: self.shell(line))

    def is_active(self, unit="cayunchis"):
        return self.shell(f"systemctl is-active {unit} || true") == "active"


@contextlib.contextmanager
def booted(root, packages, target="multi-user.target"):
    """A system over a root, with the packages, that runs what its target wants."""
    with tempfile.TemporaryDirectory() as over, group() as place:
        script = FIRST.format(over=over, root=root, packages=packages, target=target)
        kinds = ("mount", "pid", "uts", "ipc", "cgroup", "net")
        words = ["unshare", *(f"--{it}" for it in kinds), "--fork", "--kill-child",
                 "bash", "-ec", script]

        def enter():
            """Called in the child: it is of the group, and ends when this process does."""
            set_signal_of_parents_death = 1
            ctypes.CDLL(None).prctl(set_signal_of_parents_death, signal.SIGKILL)
            (place / "cgroup.procs").write_text("0")

        signal.signal(signal.SIGTERM, lambda *_: sys.exit(1))
        process = subprocess.Popen(words, stdin=subprocess.DEVNULL, stdout=subprocess.DEVNULL,
                                   stderr=subprocess.DEVNULL, preexec_fn=enter)
        try:
            yield System(process.pid)
        finally:
            process.send_signal(signal.SIGKILL)
            process.wait()
            time.sleep(1)


# ---- what the units do

def killed(system):
    """A server that was killed is started again; the office is as it was."""
    line = ("curl -fsS -d '{\"id\":12,\"interval\":365,\"name\":\"Main St\"}' "
            "http://127.0.0.1:8080/intersections")
    expect("an intersection", system.shell(line), '{"result":"added"}')
    system.shell("systemctl kill --signal=KILL cayunchis")
    time.sleep(1)
    expect("the stock", system.asked(), STOCK)
    expect("how often it was started again",
           system.shell("systemctl show -P NRestarts cayunchis"), "1")
    return system.shell("curl -fsS http://127.0.0.1:8080/intersections/12")


def failed(system):
    """A server that ends five times is told as failed. It is started no more until what counts the
    starts is reset; then it comes back."""
    system.shell(f"systemctl stop cayunchis; mv {OFFICE} {OFFICE}.away; "
                 f"mv {OFFICE}-wal {OFFICE}.log; echo text > {OFFICE}; "
                 f"chown cayunchis: {OFFICE}; systemctl start cayunchis")
    asked = "systemctl is-failed cayunchis || true"
    system.until("failure", lambda: "failed" in system.shell(asked))
    told = system.until("line of what failed", lambda: system.shell(
        "journalctl --priority alert --output cat || true"))
    expect("what is told", told, "cayunchis.service failed: see journalctl -u cayunchis.service")
    note = system.shell("journalctl -u cayunchis --output cat | grep note: | sort -u")
    expect("the note in the journal", note, f"note: {OFFICE} is no database")
    system.shell(f"mv {OFFICE}.away {OFFICE}; mv {OFFICE}.log {OFFICE}-wal")
    count = "journalctl -u cayunchis --output cat | grep -c 'repeated too quickly' || true"
    before = int(system.shell(count))
    system.shell("systemctl start cayunchis", status=1)
    expect("refusals of a start that is one too many", int(system.shell(count)), before + 1)
    expect("the server", system.is_active(), False)
    system.shell("\n".join(["set -e", *part("Watch it")[1]]))
    expect("the stock", system.asked(), STOCK)
    return told


def saved(system):
    """A copy is made, and where none can be made nothing else is; the server runs on."""
    server = system.shell("systemctl show -P MainPID cayunchis")
    system.shell("systemctl start cayunchis-backup")
    expect("the stock after a copy", system.asked(), STOCK)
    system.shell(f"mount -t tmpfs -o size=4k tmpfs {COPIES} && systemctl start cayunchis-backup",
                 status=1)
    expect("the stock after a copy that failed", system.asked(), STOCK)
    told = system.until("line of what failed", lambda: system.shell(
        "journalctl --priority alert --output cat | grep cayunchis-backup || true"))
    expect("what is told", told, "cayunchis-backup.service failed: see journalctl -u "
           "cayunchis-backup.service")
    system.shell(f"umount {COPIES} && systemctl reset-failed")
    expect("the server", system.shell("systemctl show -P MainPID cayunchis"), server)
    for turn in range(7):
        system.shell("sleep 1; systemctl reset-failed; systemctl start cayunchis-backup")
        expect(f"the stock after copy {turn + 1} of seven", system.asked(), STOCK)
    return system.shell(f"ls {COPIES}").replace("\n", " ")
