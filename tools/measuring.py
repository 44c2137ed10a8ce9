"""What the measuring tools share: the built program, the least processor time of several runs, and their greatest memory."""
import os
import subprocess
import sys

TOP = os.path.dirname(os.path.dirname(os.path.abspath(__file__)))


def built_program(words, path="crates/zcpd/out/zcpd", builder="./zcpd"):
    """The program that the words name, else the one that was built here."""
    program = words[1] if len(words) > 1 else os.path.join(TOP, path)
    if not os.access(program, os.X_OK):
        sys.exit("%s is not built: %s builds it" % (program, builder))
    return program


def run_once(command, path):
    """What a run on a file as standard input used: processor time in seconds, and memory at its greatest in bytes.

    The memory is never told as less than that of this script, from which the run is started.
    """
    with open(path, "rb") as source:
        child = subprocess.Popen(command, stdin=source, stdout=subprocess.DEVNULL)
        _, status, usage = os.wait4(child.pid, 0)
    if status != 0:
        sys.exit("%s failed" % " ".join(command))
    return usage.ru_utime + usage.ru_stime, usage.ru_maxrss * 1024


def best_time(command, path, runs):
    """The least processor time, in seconds, of so many runs on a file as standard input."""
    return min(run_once(command, path)[0] for _ in range(runs))


def best_of(command, path, runs):
    """The least processor time of so many runs, in seconds, and their greatest memory, in bytes."""
    used = [run_once(command, path) for _ in range(runs)]
    return min(time for time, _ in used), max(memory for _, memory in used)
