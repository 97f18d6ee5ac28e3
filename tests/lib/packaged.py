"""Packages of the program for tests, where an installed one keeps its files, and commands of
docs/OPERATING.md."""
import os
import pathlib
import shlex
import shutil
import subprocess

from program import TOP
from serving import Off
from shown import blocks

STATE, COPIES = "/var/lib/cayunchis", "/var/backups/cayunchis"
OFFICE = f"{STATE}/city.db"
OLDER = "0.0.1"
PLAN = "/usr/share/doc/cayunchis/bench/plan.csv"


def lacking(tools):
    """Why no root can be laid over this machine's with these tools of its administrator, if so."""
    missing = [it for it in tools if not shutil.which(it, path="/usr/sbin:/usr/bin:/sbin:/bin")]
    if missing:
        return f"there is no {', '.join(missing)}"
    if os.geteuid():
        return "only root may mount"
    if os.path.exists(STATE):
        return f"this machine has an office in {STATE}"
    if "overlay" not in pathlib.Path("/proc/filesystems").read_text():
        return "the kernel has no overlays"
    return ""


def part(title):
    """The blocks of a part of docs/OPERATING.md, as their lines."""
    text = (TOP / "docs" / "OPERATING.md").read_text().partition(f"\n## {title}\n")[2]
    found_blocks = blocks(text.partition("\n## ")[0])
    return [lines for it in found_blocks if (lines := [line for line in it if line.strip()])]


def ran(*words, status=0, **how):
    """What a command prints; it has to end with this status."""
    done = subprocess.run(words, stdin=subprocess.DEVNULL, stdout=subprocess.PIPE,
                          stderr=subprocess.STDOUT, text=True, errors="replace", **how)
    if done.returncode != status:
        raise Off(f"{shlex.join(map(str, words))}: status {done.returncode}\n{done.stdout}")
    return done.stdout.strip()


def packed(folder, program, number):
    """The package of a program under a version."""
    ran(TOP / "office-package", folder, "--program", program, "--version", number)
    return folder / f"cayunchis_{number}_amd64.deb"
