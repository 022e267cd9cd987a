"""compare.py PROGRAM: runs each work in each form, and prints the times and the peaks of memory beside each other.

A time is the processor's for the whole program, and the middle one of seven runs. Memory is what the program had at most.
"""

import os
import subprocess
import sys

RUNS = 7


def run_once(words):
    """The processor seconds and the peak in MB of one run of the program, and how many steps it did."""
    with subprocess.Popen([sys.argv[1], *words], stdout=subprocess.PIPE, text=True) as ran:
        steps = ran.stdout.read().strip()
        _, status, used = os.wait4(ran.pid, 0)
        ran.returncode = os.waitstatus_to_exitcode(status)
    if ran.returncode or not steps.isdigit():
        sys.exit(f"{' '.join(words)}: status {ran.returncode}, {steps!r}")
    return used.ru_utime + used.ru_stime, used.ru_maxrss / 1024, int(steps)


def middle(*words):
    """The run that took the middle time."""
    return sorted(run_once([str(word) for word in words]) for _ in range(RUNS))[RUNS // 2]


def told(run):
    seconds, peak, steps = run
    return f"{seconds:7.3f} s {peak:6.1f} MB ({steps} steps)"


def compare(work, rows):
    """Both forms of a work."""
    stores, plain = middle(work, rows, "stores"), middle(work, rows, "plain")
    time, peak = stores[0] / plain[0], stores[1] / plain[1]
    print(f"{work:8} {rows:8}  stores {told(stores)}")
    print(f"{'':17}  plain  {told(plain)}  time {time:.2f}-fold, memory {peak:.2f}-fold")
    return stores[0]


def grow(name, small, large):
    print(f"{name}: ten times the rows take {large / small:.1f}-fold the time")


def main():
    for work in ("finds", "rows"):
        small, _, large = [compare(work, rows) for rows in (100_000, 200_000, 1_000_000)]
        grow(work, small, large)
    for work, form in (("batches", "stores"), ("site", "many"), ("site", "one")):
        times = []
        for rows in (100_000, 1_000_000):
            run = middle(work, rows, form)
            times.append(run[0])
            print(f"{work:8} {rows:8}  {form:6} {told(run)}")
        grow(f"{work} {form}", *times)


main()
