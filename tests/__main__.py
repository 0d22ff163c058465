"""Runs the modules of tests, side by side.

usage: python3 -m tests [MODULE]..

A MODULE is named as its file, such as test_night; where none is said, all are run. As many are run at a time as
tools/gate/lanes.sh says. It prints a line where a module is done, and of one with a failure all that it said. A test that is
skipped is said, and counts as neither. The last line is 'N passed, M failed', of tests; a module that can't be loaded, that
has no test or that ends without its counts is one failure.
"""

import collections
import concurrent.futures
import os
import pathlib
import re
import subprocess
import sys
import time
import unittest

from tests.harness import TOP, program

MODULES = sorted(path.stem for path in (TOP / "tests").glob("test_*.py"))

# Those that take longest are begun first.
LONGEST = ["test_failing", "test_cases", "test_look", "test_explain", "test_receipts", "test_drafts"]

# The page of a No needs libraries, which one Python of a machine may have and another may not.
PYTHONS = {"test_look": [sys.executable, "/usr/bin/python3"]}
LIBRARIES = "import matplotlib, numpy, tomllib"
COUNTS = re.compile(r"^(\d+) passed, (\d+) failed$")


class Result(unittest.TextTestResult):
    """A result that counts what passed, and says why tests are skipped."""

    def __init__(self, *words, **more):
        super().__init__(*words, **more)
        self.passed = 0
        self.reasons = collections.Counter()

    def addSuccess(self, test):
        super().addSuccess(test)
        self.passed += 1

    def addSkip(self, test, reason):
        super().addSkip(test, reason)
        self.reasons[reason] += 1


def run_module(name):
    """Runs a module in this process, and says its counts last."""
    suite = unittest.defaultTestLoader.loadTestsFromName(f"tests.{name}")
    runner = unittest.TextTestRunner(stream=sys.stdout, verbosity=0, resultclass=Result)
    result = runner.run(suite)
    for reason, count in sorted(result.reasons.items()):
        print(f"skipped, {count}: {reason}")
    failed = len(result.failures) + len(result.errors) + len(result.unexpectedSuccesses)
    if not result.passed and not failed and not result.reasons:
        print("no test")
        failed = 1
    print(f"{result.passed} passed, {failed} failed")
    return 1 if failed else 0


def python_of(name):
    """The Python that runs a module: the first that has what it needs, or else this one."""
    for python in PYTHONS.get(name, []):
        if pathlib.Path(python).exists() and not subprocess.run([python, "-c", LIBRARIES], capture_output=True).returncode:
            return python
    return sys.executable


def counted(name):
    """Runs a module in a process of its own: its name, what it said, how many passed and failed, and the seconds."""
    begun = time.monotonic()
    how = {"stdin": subprocess.DEVNULL, "stdout": subprocess.PIPE, "stderr": subprocess.STDOUT, "cwd": TOP}
    ended = subprocess.run([python_of(name), "-B", "-m", "tests", "--one", name], text=True, check=False, **how)
    last = COUNTS.match((ended.stdout.splitlines() or [""])[-1])
    passed, failed = (int(last[1]), int(last[2])) if last else (0, 1)
    if ended.returncode and not failed:
        failed = 1
    return name, ended.stdout, passed, failed, time.monotonic() - begun


def main(words):
    if words[:1] == ["--one"]:
        return run_module(words[1])
    unknown = [word for word in words if word not in MODULES]
    if unknown:
        print(f"no such module: {' '.join(unknown)}\n{__doc__}", file=sys.stderr)
        return 2
    os.environ["EDFCLAIM"] = program()
    lanes = int(subprocess.run([TOP / "tools" / "gate" / "lanes.sh"], capture_output=True, check=True).stdout)
    order = sorted(words or MODULES, key=lambda name: LONGEST.index(name) if name in LONGEST else len(LONGEST))
    passed = failed = 0
    with concurrent.futures.ThreadPoolExecutor(lanes) as pool:
        for ended in concurrent.futures.as_completed([pool.submit(counted, name) for name in order]):
            name, said, good, bad, seconds = ended.result()
            passed, failed = passed + good, failed + bad
            print(
                said if bad else "".join(f"{name}: {line}\n" for line in said.splitlines() if line.startswith("skipped")),
                end="",
            )
            print(f"{name}: {good} passed, {bad} failed, in {seconds:.0f} s", flush=True)
    print(f"{passed} passed, {failed} failed")
    return 1 if failed or not passed else 0


if __name__ == "__main__":
    try:
        sys.exit(main(sys.argv[1:]))
    except FileNotFoundError as missing:
        sys.exit(str(missing))
