"""Runs of programs, measured: what the scripts beside this file share."""

import os
import subprocess
import sys
import time

TOP = os.path.dirname(os.path.dirname(os.path.abspath(__file__)))


def peak_so_far(pid):
    """Returns the peak kilobytes of a running process, or 0 where it has just ended."""
    with open(f"/proc/{pid}/status", encoding="ascii") as file:
        return next((int(line.split()[1]) for line in file if line.startswith("VmHWM:")), 0)


def run_measured(command, given, statuses=(0,)):
    """Returns seconds by the clock, of the processor, and peak kilobytes of one run, whose output goes nowhere.

    It has to end with one of the statuses.

    The peak is looked up while the program runs: what wait4 tells counts what this script had when it started it.
    """
    peak = 0
    with open(given, "rb") as file:
        start = time.perf_counter()
        process = subprocess.Popen(command, stdin=file, stdout=subprocess.DEVNULL)
        while True:
            ended, status, usage = os.wait4(process.pid, os.WNOHANG)
            if ended:
                break
            peak = max(peak, peak_so_far(process.pid))
            time.sleep(0.002)
        taken = time.perf_counter() - start
    if os.waitstatus_to_exitcode(status) not in statuses:
        sys.exit(f"{' '.join(command)} ended with status {os.waitstatus_to_exitcode(status)}")
    return taken, usage.ru_utime + usage.ru_stime, peak


def program_of(arguments):
    """Returns the program to measure: the one that the gate built, or the one that the first argument names."""
    program = os.path.abspath(arguments[0]) if arguments else f"{TOP}/crates/iris/out/iris"
    if not os.access(program, os.X_OK):
        sys.exit(f"there is no {program}: run .ci/run first, or name another program")
    return program
