#!/usr/bin/env python3
"""Has systemd look at the units of packaging/, and run them: the service, the backup with its
timer, and what tells that one of them failed.

    tests/house/units.py [PROGRAM]

`systemd-analyze verify` reads copies of the units in which the program is the one named, by default
the one that `./office` built. Then a systemd is booted over this machine's system, with all changes
in memory and in name spaces of its own (tests/lib/booting.py): there the program and the units are
put in place, and made ready and started by the commands of docs/OPERATING.md; they are killed,
started too often, and brought back; copies are made, and where none can be made that is told.
Nothing is installed on this machine. Without root, systemd, curl, nsenter or overlays the units are
only looked at.

It prints what was tried, and ends with status 1 if something was otherwise; it takes a minute.
"""
import os
import pathlib
import shutil
import subprocess
import sys
import tempfile

sys.path.insert(0, str(pathlib.Path(__file__).resolve().parents[1] / "lib"))
from booting import STOCK, booted, failed, killed, saved
from packaged import lacking, part
from program import TOP, found
from serving import Off, expect

INSTALLED = "/usr/bin/signal_office"  # where the package puts the program
UNITS = "/usr/lib/systemd/system"
TOOLS = ("curl", "mount", "nsenter", "unshare", "useradd")


def units():
    """The paths of the units."""
    folder = TOP / "packaging"
    return sorted([*folder.glob("*.service"), *folder.glob("*.timer")])


def copied(folder, program):
    """The paths of the copies."""
    for unit in units():
        text = unit.read_text()
        is_template = "@" in unit.name
        if unit.suffix == ".service" and INSTALLED not in text and not is_template:
            raise Off(f"{unit.name} does not run {INSTALLED}")
        copy = folder / unit.name.replace("@.", "@trial.")
        copy.write_text(text.replace(INSTALLED, program))
        yield copy


def looked_at(program):
    """What systemd finds wrong in the units."""
    with tempfile.TemporaryDirectory() as room:
        copies = list(copied(pathlib.Path(room), program))
        words = ["systemd-analyze", "verify", "--man=no", *copies]
        ran = subprocess.run(words, stdout=subprocess.PIPE, stderr=subprocess.STDOUT, text=True)
    wrong = [line for line in ran.stdout.splitlines() if "cayunchis" in line]
    expect(f"what systemd finds wrong: {ran.stdout}", (ran.returncode, wrong), (0, []))
    return f"{len(copies)} units"


def unbootable():
    """Why no systemd can be booted here, if so."""
    if why := lacking(TOOLS):
        return why
    if not os.path.exists("/lib/systemd/systemd"):
        return "there is no systemd"
    places = "/sys/fs/cgroup/unified/cgroup.procs", "/sys/fs/cgroup/cgroup.procs"
    return "" if any(map(os.path.exists, places)) else "there are no control groups"


def laid(system):
    """The program and its units, in place, and started by the commands of the document."""
    places = f"install signal_office {INSTALLED}", f"install -m 644 *.service *.timer {UNITS}"
    lines = [it for it in part("Install the package")[-1] if not it.startswith("tar ")]
    system.shell("\n".join(["set -e", *places, *lines]))
    expect("the stock", system.asked(), STOCK)
    return system.shell("systemctl is-active cayunchis.service cayunchis-backup.timer").split()


def main():
    program = found(sys.argv[1:2])
    if not shutil.which("systemd-analyze"):
        print("units.py: there is no systemd-analyze")
        sys.exit(77)
    try:
        print(f"looked at: {looked_at(program)}", flush=True)
        if why := unbootable():
            return print(f"not run: {why}")
        with tempfile.TemporaryDirectory() as room:
            shutil.copy2(program, pathlib.Path(room, "signal_office"))
            for unit in units():
                shutil.copy2(unit, room)
            with booted("/", room, "basic.target") as system:
                for trial in (laid, killed, failed, saved):
                    print(f"{trial.__name__}: {trial(system)}", flush=True)
    except Off as it:
        sys.exit(f"FAILED: {it}")
    print("ok")


if __name__ == "__main__":
    main()
