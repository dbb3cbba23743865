"""How long a program runs, and how much memory it holds.

A run is measured by a process of its own, which is small: what a child held counts what its parent held when it began.
"""
import os
import subprocess
import sys
import time


def run(words, stream, output):
    """Wall time in seconds, and the most memory held in bytes."""
    measured = subprocess.run(
        [sys.executable, os.path.abspath(__file__), stream, output, *words],
        stdout=subprocess.PIPE,
        check=False,
    )
    if measured.returncode != 0:
        sys.exit(f"{words[0]} failed on {stream}")
    seconds, memory = measured.stdout.split()
    return float(seconds), int(memory)


def measure(stream, output, words):
    """Runs the program and prints what `run` gives; its status is the program's."""
    with open(stream, "rb") as given, open(output, "wb") as taken:
        start = time.monotonic()
        child = subprocess.Popen(words, stdin=given, stdout=taken)
        _, status, usage = os.wait4(child.pid, 0)
        seconds = time.monotonic() - start
    print(seconds, usage.ru_maxrss * 1024)
    return os.waitstatus_to_exitcode(status)


if __name__ == "__main__":
    sys.exit(measure(sys.argv[1], sys.argv[2], sys.argv[3:]))
