"""Libraries that are loaded before the system's, to stand between the program and the system. They
are built by the machine's C compiler, `cc`."""
import os
import subprocess
import sys


def built(folder, name, source):
    """The path of a library that is built of this text. Where it can't be, that is told, and the
    script ends."""
    text, library = folder / f"{name}.c", folder / f"{name}.so"
    text.write_text(source)
    words = ["cc", "-O1", "-Wall", "-fPIC", "-shared", "-o", library, text]
    try:
        subprocess.run(words, check=True)
    except (OSError, subprocess.CalledProcessError) as it:
        script = os.path.basename(sys.argv[0])
        sys.exit(f"{script}: the C compiler cc did not build {name}.c, which this needs: {it}")
    return library
