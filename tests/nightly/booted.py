#!/usr/bin/env python3
"""Boots a Debian with systemd as its first process, and does there what docs/OPERATING.md says.

    tests/nightly/booted.py ROOT [PROGRAM]

ROOT is a folder with a Debian that has systemd, curl, nginx and openssl, as this makes it:

    debootstrap --include=systemd-sysv,curl,nginx-light,openssl bookworm ROOT

It stays as it is: the system runs over an overlay, in name spaces of its own, without a network.
The commands of the document are run there as they stand in it: the package is installed; the server
is killed, fails until systemd starts it no more, and comes back; its disk is full; it gets another
port and a proxy, is backed up, also where no copy can be made, upgraded, restored from a copy,
given another office, moved to another machine, removed and purged; a group shares an office. Needs
root, and `./office-package`. It prints what it tried, and ends with status 1 if something was
otherwise; it takes a minute or two. ./office-tests does not run it.
"""
import os
import pathlib
import re
import shutil
import sys
import tempfile

sys.path.insert(0, str(pathlib.Path(__file__).resolve().parents[1] / "lib"))
import version
from booting import STOCK, booted, failed, killed, saved
from packaged import COPIES, OFFICE, OLDER, PLAN, STATE, packed, part
from program import TOP, found
from serving import Off, expect


# ---- the trials

def installed(system):
    """The first block of the document, line by line."""
    told = {}
    for line in part("Install the package")[0]:
        told[line.split()[0]] = system.shell(line.replace(version.number(), OLDER))
    expect("the stock", told["curl"].splitlines()[-1], STOCK)
    expect("a copy", bool(re.fullmatch(r"city-[\d-]+\.db", told["ls"])), True)
    for unit in ("cayunchis.service", "cayunchis-backup.timer"):
        expect(unit, system.shell(f"systemctl is-enabled {unit}"), "enabled")
        expect(unit, system.is_active(unit), True)
    shown = system.shell("systemctl show -P NextElapseUSecRealtime cayunchis-backup.timer")
    expect("the next copy", "02:30" in shown, True)
    return f"the next copy on {shown}"


def checks():
    """The check of the document that reads, what it adds once, and the check that writes."""
    text = (TOP / "docs" / "OPERATING.md").read_text()
    reads = re.search(r"`(curl [^`]*/stock)` once a minute", text)[1]
    return reads, *("\n".join(block) for block in part("Watch it")[-2:])


def watched(system):
    """The two checks of the document: the second one writes."""
    reads, adds, writes = checks()
    system.shell("\n".join([reads, "set -e", adds]))
    system.shell(writes)
    told = system.shell("curl -fsS http://127.0.0.1:8080/intersections/9999")
    expect("the state after a check", '"state":"normal"' in told, True)
    return told


def full(system):
    """On a full disk the check that reads sees nothing, the one that writes does, and the journal
    says why; once there is room the server goes on by itself."""
    reads, _, writes = checks()
    owned = f"chown cayunchis: {STATE}; chmod 700 {STATE}"
    system.shell(f"systemctl stop cayunchis; cp -a {STATE} /var/lib/kept; mount -t tmpfs "
                 f"-o size=400k tmpfs {STATE}; {owned}; cp -a /var/lib/kept/city.db* {STATE}")
    system.shell("systemctl reset-failed cayunchis; systemctl start cayunchis")
    expect("the stock", system.asked(), STOCK)
    system.shell(f"dd if=/dev/zero of={STATE}/full bs=4k || true")
    expect("the check that reads", system.shell(reads), STOCK)
    told = system.shell(writes, status=22)
    expect(f"the check that writes: {told}", "Unavailable" in told, True)
    system.shell("systemctl restart cayunchis")
    expect("the stock of a server that begins there", system.asked(), STOCK)
    cause = system.shell("journalctl -u cayunchis --output cat | grep 'No space left' | sort -u")
    expect("the cause", cause, f"note: the system refuses {OFFICE}-wal: No space left on device "
           "(os error 28)")
    system.shell(f"rm {STATE}/full")
    system.shell(writes)
    system.shell(f"systemctl stop cayunchis; umount {STATE}; rm -r /var/lib/kept; "
                 "systemctl start cayunchis")
    expect("the stock on the first disk", system.asked(), STOCK)
    return cause


def code(system, *words):
    """The status that curl gets."""
    shown = "-o /dev/null -w '%{http_code}'"
    return system.shell(" ".join(["curl -sk", shown, *words]))


def proxied(system):
    """The proxy of the document: who may ask, what it refuses, and what it answers for a server
    that is down."""
    if not system.shell("command -v nginx openssl || true"):
        return "not tried: there is no nginx, or no openssl"
    lines = "\n".join(part("Behind nginx, with passwords")[0])
    system.shell(
        "cd /etc/nginx; rm -f sites-enabled/default; openssl req -x509 -newkey rsa:2048 -nodes "
        "-days 2 -subj /CN=office.example.org -keyout office.key -out office.pem; "
        "echo \"ana:$(openssl passwd -apr1 secret)\" > office.users; "
        f"cat > sites-enabled/office <<'END'\n{lines}\nEND\n"
        "echo 127.0.0.1 office.example.org >> /etc/hosts; nginx -t && systemctl restart nginx")
    url, ana = "https://office.example.org/stock", "-u ana:secret"
    came = {
        "Ana": code(system, ana, url), "nobody": code(system, url),
        "a page of the office": code(system, ana, "-H 'Origin: https://office.example.org'", url),
        "a page of another site": code(system, ana, "-H 'Origin: https://example.com'", url),
        "another name": code(system, ana, "https://127.0.0.1/stock"),
        "a page, without the proxy": code(system, "-H 'Origin: https://example.com'",
                                          "http://127.0.0.1:8080/stock"),
        "a long body": code(system, ana, "-d @/usr/bin/signal_office", url),
    }
    system.shell("systemctl stop cayunchis")
    told = system.shell("curl -sS http://127.0.0.1:8080/stock 2>&1", status=7)
    expect(f"without the proxy: {told}", "refused" in told or "connect" in told, True)
    came["a server that is down"] = code(system, ana, url)
    system.shell("systemctl start cayunchis")
    system.asked()
    came["one that is back"] = code(system, ana, url)
    expect("what is answered", [*came.values()],
           ["200", "401", "200", "403", "403", "200", "413", "502", "200"])
    return ", ".join(f"{who} {it}" for who, it in came.items())


def ported(system):
    """The server gets another port, and the first one again."""
    lines = "\\n".join(part("Install the package")[1])
    folder = "/etc/systemd/system/cayunchis.service.d"
    system.shell(f"mkdir -p {folder}; printf '{lines}\\n' > {folder}/override.conf; "
                 "systemctl daemon-reload; systemctl restart cayunchis")
    expect("the stock on another port", system.asked("8090"), STOCK)
    system.shell(f"rm -r {folder}; systemctl daemon-reload; systemctl restart cayunchis")
    expect("the stock on the first port", system.asked(), STOCK)
    return lines.replace("\\n", " ")


def upgraded(system):
    """A newer version comes over an office that is served."""
    system.shell(f"runuser -u cayunchis -- signal_office edit --db {OFFICE} --clerk Ana --commit "
                 f"12 {PLAN}")
    before = system.shell("curl -fsS http://127.0.0.1:8080/intersections/12")
    told = system.shell(f"apt install ./cayunchis_{version.number()}_amd64.deb")
    expect("the migration", "migrated 0 rows" in told, True)
    expect("the stock after the upgrade", system.asked(), STOCK)
    expect("the intersection after the upgrade",
           system.shell("curl -fsS http://127.0.0.1:8080/intersections/12"), before)
    expect("the timer after the upgrade", system.is_active("cayunchis-backup.timer"), True)
    return system.shell(f"ls {COPIES} | grep before-upgrade")


def restored(system):
    """An older copy is restored by the commands of the document: the plan is gone again."""
    name = system.shell(f"ls {COPIES} | grep city- | tail -1")
    lines = "\n".join(sum(part("Restore")[:2], []))
    system.shell("set -e\n" + re.sub(r"city-\d[\d-]*\.db", name, lines))
    expect("the stock of the copy", system.asked(), STOCK)
    told = system.shell("curl -fsS http://127.0.0.1:8080/intersections/12")
    expect("the revision of the copy", '"revision":0' in told, True)
    return name


def brought(system):
    """Another office is put in place of the one that is there."""
    system.shell("signal_office add --db city.db 7 30 Elm")
    told = system.shell("\n".join(["set -e", *sum(part("Install the package")[2:4], [])]))
    expect("the migration", told.splitlines()[-1], "migrated 0 rows")
    system.asked()
    return system.shell("curl -fsS http://127.0.0.1:8080/overdue/2199-12-31")


def listed(system):
    """The intersections and the stock of the office in place."""
    command = f"runuser -u cayunchis -- signal_office {{}} --db {OFFICE}"
    return [system.shell(command.format(it)) for it in ("list", "stock")]


def moved(system):
    """The office goes to another machine, for which this one stands with a new office; and back."""
    before = listed(system)
    system.shell("\n".join(["set -e", *part("To another machine")[0]]))
    units = "cayunchis.service", "cayunchis-backup.timer"
    shown = [system.shell(f"systemctl is-enabled {it} || true") for it in units]
    expect("the old machine", (shown, system.is_active()), (["disabled"] * 2, False))
    system.shell(f"mv {STATE} /var/lib/old; mv copy.db city.db; rm -f city.db-wal; systemctl "
                 f"enable --now {' '.join(units)}")
    system.asked()
    bring = "\n".join(["set -e", *sum(part("Install the package")[2:4], [])])
    system.shell(bring.replace("city.db city.db-wal ", "city.db "))
    system.asked()
    expect("the office on the new machine", listed(system), before)
    system.shell(f"systemctl stop {' '.join(units)}; mv {STATE} /var/lib/new; "
                 f"mv /var/lib/old {STATE}; systemctl enable --now {' '.join(units)}")
    system.asked()
    expect("the office on the old machine", listed(system), before)
    return before[0].replace("\n", "; ")


def shared(system):
    """Two users of a group use an office in turn. One who may not write its folder needs a log."""
    system.shell("groupadd signals; useradd -g signals ana; useradd -g signals bo; useradd eve")
    system.shell("\n".join(["set -e", "umask 002", *part("A folder for a group")[0]]))
    told = system.shell("umask 002; signal_office add --db other.db 12 365 Oak; "
                        "stat -c %a other.db")
    expect("the mode of a file under umask 002", told, "added\n644")
    office = "/srv/signals/city.db"
    add = "umask 002; runuser -u {} -- signal_office add --db " + office + " {} 30 Elm 2>&1"
    for user, number in (("ana", 13), ("bo", 14)):
        expect(f"what {user} adds", system.shell(add.format(user, number)), "added")
    told = system.shell(add.format("eve", 15), status=1)
    expect(f"what eve adds: {told}", "Permission denied" in told, True)
    system.shell("chmod 2750 /srv/signals")
    expect("beside a log", system.shell(add.format("ana", 16)), "added")
    system.shell(f"rm -f {office}-wal")
    told = system.shell(add.format("ana", 17), status=1)
    expect(f"without a log: {told}", told.splitlines()[-1], "fault: store")
    return told.replace("\n", "; ")


def removed(system):
    """Removed and purged, the server is gone, and the office stays."""
    system.shell("apt remove -y cayunchis")
    expect("the server after a removal", system.is_active(), False)
    system.shell("apt purge -y cayunchis")
    expect("what is enabled after a purge",
           system.shell("find /etc/systemd /var/lib/systemd -name '*cayunchis*.*'"), "")
    return system.shell(f"ls {OFFICE}")


TRIALS = (installed, killed, failed, watched, full, ported, proxied, saved, upgraded, restored,
          brought, moved, shared, removed)


def main():
    if not sys.argv[1:] or sys.argv[1].startswith("-"):
        sys.exit(__doc__)
    root, program = pathlib.Path(sys.argv[1]).resolve(), found(sys.argv[2:3])
    if os.geteuid() or not (root / "lib/systemd/systemd").exists() or not shutil.which("nsenter"):
        print("booted.py: it needs root, a root with systemd, and nsenter")
        sys.exit(77)
    with tempfile.TemporaryDirectory() as room:
        packages = pathlib.Path(room)
        packed(packages, program, OLDER)
        sums = (packages / "SHA256SUMS").read_text()
        packed(packages, program, version.number())
        (packages / "SHA256SUMS").write_text(sums)
        try:
            with booted(root, packages) as system:
                for trial in TRIALS:
                    print(f"{trial.__name__}: {trial(system)}", flush=True)
        except Off as it:
            sys.exit(f"FAILED: {it}")


if __name__ == "__main__":
    main()
