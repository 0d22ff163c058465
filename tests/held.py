"""Runs a command, and says how much memory it held at the most.

usage: python3 -m tests.held FILE COMMAND..

The number of units of 1024 bytes is written to FILE. What the system says of a process counts the memory of the one that
began it, too, so a command is begun by this one, which is small: some 14 MB, below which nothing is seen. It ends with the
command's status.
"""

import pathlib
import resource
import subprocess
import sys


def main(to, *words):
    status = subprocess.run(words, check=False).returncode
    pathlib.Path(to).write_text(str(resource.getrusage(resource.RUSAGE_CHILDREN).ru_maxrss), encoding="utf-8")
    return status


if __name__ == "__main__":
    sys.exit(main(*sys.argv[1:]))
