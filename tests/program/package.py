#!/usr/bin/env python3
"""Installs the Debian package into a root of its own, works with it, and upgrades and removes it.

    tests/program/package.py [PROGRAM]

`./office-package` packs the program, also as an older version. The root is this machine's system
with all changes in memory (an overlay), which nobody else sees. There dpkg installs the older
version; the commands of the units run as their user; the newer version comes over an office in
place, and does not where that can't be copied; a removal and a purge leave the office. lintian
looks at the package where it is there.

It starts no systemd. Needs root, Debian's dpkg and adduser, and a kernel with overlays; where one
is missing it is skipped with status 77. It prints what it tried, and ends with status 1 if
something was otherwise; it takes some ten seconds.
"""
import contextlib
import http.client
import json
import os
import pathlib
import re
import shlex
import shutil
import socket
import subprocess
import sys
import tarfile
import tempfile
import time

sys.path.insert(0, str(pathlib.Path(__file__).resolve().parents[1] / "lib"))
import version
from packaged import COPIES, OFFICE, OLDER, PLAN, STATE, lacking, packed, part, ran
from program import found
from serving import Off, expect

SKIPPED, INSIDE = 77, "--inside"
TOOLS = ("dpkg", "dpkg-deb", "adduser", "unshare", "chroot", "runuser", "mount")
UNITS = "usr/lib/systemd/system"
PATIENCE = 10  # seconds
PORT = "8080"  # of the unit
LINK = re.compile(r"\]\(([^)#:]+)(?:#[^)]*)?\)")


# ---- the packages by themselves

def files_of(deb):
    """The files of a package, below its root."""
    with subprocess.Popen(["dpkg-deb", "--fsys-tarfile", deb], stdout=subprocess.PIPE) as process:
        with tarfile.open(fileobj=process.stdout, mode="r|") as tar:
            return {it.name.removeprefix("./") for it in tar if it.isfile()}


def alike(folder, deb, program):
    """The archive has the files of the package, the sums are right, and the same comes again."""
    ran("sha256sum", "--check", "SHA256SUMS", cwd=folder)
    tar = deb.with_name(deb.name.replace("_", "-").replace(".deb", ".tar.xz"))
    with tarfile.open(tar) as entries:
        there = {it.name.partition("/")[2] for it in entries if it.isfile()}
    expect("files of the archive alone, or of the package", there ^ files_of(deb), set())
    before, sums = deb.read_bytes(), (folder / "SHA256SUMS").read_text()
    packed(folder, program, version.number())
    expect("the same packages again", deb.read_bytes() == before, True)
    expect("the same sums again", (folder / "SHA256SUMS").read_text(), sums)
    return f"{len(there)} files"


def linted(deb):
    """What lintian finds."""
    if not shutil.which("lintian"):
        return "there is no lintian"
    told = ran("lintian", "--allow-root", "--fail-on", "none", deb)
    errors = [it for it in told.splitlines() if it.startswith("E:")]
    expect("errors of lintian", errors, [])
    return f"no error, {len(told.splitlines())} remarks"


# ---- in the root

class Root:
    """A root with this machine's system, in which changes are lost at the end."""

    def __init__(self, room):
        over = room / "over"
        over.mkdir()
        ran("mount", "-t", "tmpfs", "tmpfs", over)
        for name in ("upper", "work", "root"):
            (over / name).mkdir()
        self.path = over / "root"
        ran("mount", "-t", "overlay", "overlay", "-o",
            f"lowerdir=/,upperdir={over}/upper,workdir={over}/work", self.path)
        ran("mount", "-t", "proc", "proc", self.path / "proc")
        ran("mount", "--bind", "/dev", self.path / "dev")
        ran("mount", "-t", "tmpfs", "tmpfs", self.path / "run")
        self.at("/var/lib/man-db/auto-update").unlink(missing_ok=True)  # else each step takes long

    def at(self, path):
        return self.path / str(path).lstrip("/")

    def run(self, *words, **how):
        return ran("chroot", self.path, *words, **how)

    def as_user(self, *words, **how):
        return self.run("runuser", "-u", "cayunchis", "--", *words, **how)

    def dpkg(self, *words, **how):
        env = {**os.environ, "DEBIAN_FRONTEND": "noninteractive"}
        return ran("dpkg", f"--root={self.path}", *words, env=env, **how)

    def is_there(self, path):
        return os.path.lexists(self.at(path))

    def unit(self, name, key):
        """The values of a key in a unit, as systemd reads it."""
        text = self.at(f"{UNITS}/{name}").read_text().replace("\\\n", " ")
        return re.findall(rf"^{key}=(.*)$", text, re.MULTILINE)

    def commands(self, name):
        """The commands of a unit as words, with the variables of its environment."""
        values = dict(it.split("=", 1) for it in self.unit(name, "Environment"))
        for line in self.unit(name, "ExecStart"):
            for key, value in values.items():
                line = line.replace(f"${{{key}}}", value)
            yield shlex.split(line.replace("$$", "$").replace("%%", "%"))


def there(root):
    """The version, the user with its home and shell, and whose the folders are; and how they have
    to be."""
    name, _, _, _, _, home, shell = root.run("getent", "passwd", "cayunchis").split(":")
    folders = root.run("stat", "-c", "%U %G %a", STATE, COPIES).splitlines()
    came = root.run("signal_office", "--version").split()[1], name, home, shell, *folders
    wanted = version.number(), "cayunchis", STATE, "/usr/sbin/nologin"
    return came, (*wanted, *["cayunchis cayunchis 700"] * 2)


def installed(root, deb):
    """The package is installed: the program, its user, its folders, and whatever shows it."""
    root.dpkg("--install", deb)
    expect("what stands there", *there(root))
    expect("an office", root.is_there(OFFICE), False)
    return "the program, its user and folders"


def shown(root):
    """What stands beside the program: the manual page, a completion, documents whose links lead
    somewhere, and PROVED."""
    if root.is_there("/usr/bin/man"):
        page = root.run("man", "--warnings", "/usr/share/man/man1/signal_office.1.gz")
        expect("a manual page", "SIGNAL_OFFICE(1)" in page, True)
    script = "source /usr/share/bash-completion/completions/$0; complete -p $0"
    told = root.run("bash", "-c", script, "signal_office")
    expect("a completion", "_signal_office" in told, True)
    documents, count = root.at("/usr/share/doc/cayunchis"), 0
    expect("the version in PROVED", version.number() in (documents / "PROVED").read_text(), True)
    for document in documents.rglob("*.md"):
        for path in LINK.findall(document.read_text()):
            expect(f"{document.name} leads to {path}", (document.parent / path).exists(), True)
            count += 1
    return f"{count} links of documents"


def asked(method, path, keys=None):
    """What the server answers, once it listens."""
    until = time.monotonic() + PATIENCE
    while True:
        wire = http.client.HTTPConnection("127.0.0.1", int(PORT), timeout=PATIENCE)
        try:
            wire.request(method, path, keys and json.dumps(keys))
            return json.load(wire.getresponse())
        except ConnectionRefusedError:
            if time.monotonic() > until:
                raise Off("the server does not listen") from None
            time.sleep(0.1)
        finally:
            wire.close()


@contextlib.contextmanager
def running(root):
    """The command of the server, which runs as its user."""
    command = [*root.commands("cayunchis.service")][0]
    expect("the unit's port", PORT in command, True)
    words = ["chroot", root.path, "runuser", "-u", "cayunchis", "--", "env", "-i", *command]
    with subprocess.Popen(words, stdin=subprocess.DEVNULL, stdout=subprocess.DEVNULL,
                          stderr=subprocess.DEVNULL, start_new_session=True) as process:
        try:
            expect("the stock", asked("GET", "/stock"), {"hand": []})
            yield " ".join(command)
        finally:
            os.killpg(process.pid, 15)


def served(root):
    """The command of the server, and a record over HTTP."""
    with running(root) as command:
        added = asked("POST", "/intersections", {"id": 12, "interval": 365, "name": "Main St"})
        expect("an intersection", added, {"result": "added"})
    return command


def used(root):
    """The main job at a shell, as the user, and the nightly copy by its unit's commands, beside the
    server."""
    edit = "signal_office", "edit", "--db", OFFICE, "--clerk", "Ana", "--commit", "12", PLAN
    with running(root):
        root.as_user(*edit)
        for command in root.commands("cayunchis-backup.service"):
            root.as_user(*command)
        expect("the stock", asked("GET", "/stock"), {"hand": []})
        listed = root.as_user("signal_office", "list", "--csv", "--db", OFFICE)
    (copy,) = root.at(COPIES).glob("city-*.db")
    expect("the list", listed, "12,1,normal,,11,Main St,365")
    expect("the copy's list", root.as_user(
        "signal_office", "list", "--csv", "--db", f"{COPIES}/{copy.name}"), listed)
    return copy.name


def kept(root):
    """What must stay: the list of the office, and the copies."""
    listed = root.as_user("/keep/signal_office", "list", "--csv", "--db", OFFICE)
    copies = sorted(it.name for it in root.at(COPIES).glob("*.db"))
    return listed, copies


def upgraded(root, older, newer):
    """A newer version comes over an office in place, which is copied before. Where it can't be
    copied, the older one stays."""
    held = root.at(OFFICE).read_bytes()
    root.at(OFFICE).write_bytes(b"no database" * 100)
    told = root.dpkg("--install", newer, status=1)
    expect("an office that can't be copied", "fault: store" in told, True)
    expect("the version that stays", root.dpkg("--status", "cayunchis").split("Version: ")[1]
           .split()[0], OLDER)
    root.at(OFFICE).write_bytes(held)
    before = kept(root)
    told = root.dpkg("--install", newer)
    expect("the migration", "migrated 0 rows" in told, True)
    listed, copies = kept(root)
    expect("the list after the upgrade", listed, before[0])
    more = [it for it in copies if it not in before[1]]
    expect("copies before the upgrade", [it[:15] for it in more], ["before-upgrade-"])
    return more[0]


def reverted(root, older, newer):
    """The older version comes again while the office is away, which is then put back."""
    before, away = kept(root)[0], root.at(STATE) / "away"
    files = [*root.at(STATE).glob("city.db*")]
    away.mkdir()
    for path in files:
        path.rename(away / path.name)
    root.dpkg("--install", older)
    for path in files:
        (away / path.name).rename(path)
    away.rmdir()
    expect("the list of the older version", kept(root)[0], before)
    root.dpkg("--install", newer)
    expect("the list of the newer version again", kept(root)[0], before)
    return " ".join(sorted(it.name for it in files))


def removed(root, deb):
    """Removed, installed again and purged: the office and its copies stay. Without them nothing
    stays but the user."""
    before = kept(root)
    root.dpkg("--remove", "cayunchis")
    expect("the program after a removal", root.is_there("/usr/bin/signal_office"), False)
    expect("the office after a removal", kept(root), before)
    root.dpkg("--install", deb)
    expect("the office of a program that came again", kept(root), before)
    root.dpkg("--purge", "cayunchis")
    expect("the office after a purge", kept(root), before)
    for folder in (STATE, COPIES):
        shutil.rmtree(root.at(folder))
    root.dpkg("--install", deb)
    root.dpkg("--purge", "cayunchis")
    left = [it for it in (STATE, COPIES, "/usr/share/doc/cayunchis") if root.is_there(it)]
    expect("what is left without an office", left, [])
    return before[0]


def unpacked(root, tar):
    """The archive by the commands of the document, but for those of systemd."""
    root.run("userdel", "cayunchis")
    shutil.copy2(tar, root.at("/keep"))
    lines = [it for it in part("Install the package")[-1] if not it.startswith("systemctl")]
    root.run("sh", "-ec", "\n".join(["cd /keep", *lines]))
    expect("what stands there", *there(root))
    return f"{len(lines)} commands"


def tried(program, room):
    """Each trial with what it says."""
    folder = room / "packages"
    folder.mkdir()
    older, newer = packed(folder, program, OLDER), packed(folder, program, version.number())
    yield "packages", alike(folder, newer, program)
    yield "lintian", linted(newer)
    root = Root(room)
    root.at("/keep").mkdir()
    shutil.copy2(program, root.at("/keep/signal_office"))
    root.at("/keep").chmod(0o755)
    yield "installed", installed(root, older)
    yield "shown", shown(root)
    yield "served", served(root)
    yield "used", used(root)
    yield "upgraded", upgraded(root, older, newer)
    yield "reverted", reverted(root, older, newer)
    yield "removed", removed(root, newer)
    yield "unpacked", unpacked(root, folder / f"cayunchis-{version.number()}-amd64.tar.xz")


def inside(program, room):
    """All trials, in a name space of mounts of their own."""
    try:
        for name, told in tried(program, pathlib.Path(room)):
            print(f"{name}: {told}", flush=True)
    except Off as it:
        sys.exit(f"FAILED: {it}")


def untried():
    """Why it can't be tried here, if so."""
    if why := lacking(TOOLS):
        return why
    with socket.socket() as wire:
        wire.setsockopt(socket.SOL_SOCKET, socket.SO_REUSEADDR, 1)
        return f"port {PORT} is taken" if wire.connect_ex(("127.0.0.1", int(PORT))) == 0 else ""


def main():
    if sys.argv[1:2] == [INSIDE]:
        return inside(*sys.argv[2:])
    program, why = found(sys.argv[1:2]), untried()
    if why:
        print(f"package.py: {why}")
        sys.exit(SKIPPED)
    with tempfile.TemporaryDirectory() as room:
        words = ["unshare", "--mount", "--propagation", "private", sys.executable, __file__]
        ended = subprocess.run([*words, INSIDE, program, room]).returncode
    sys.exit(ended)


if __name__ == "__main__":
    main()
