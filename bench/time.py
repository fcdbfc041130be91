#!/usr/bin/env python3
"""Times two programs on one case file, turn and turn about, and prints what each takes and their ratio.

    time.py BLOCKS FILE PROVED PLAIN

The time is the processor's, user and system, the median of the rounds: that of the clock depends on what else runs. Both have
read the file before, so it is in memory; their output goes to /dev/null.
"""
import os
import statistics
import subprocess
import sys
import time

ROUNDS = 41


def once(program, path):
    """The processor's time and the clock's, in seconds."""
    with open(path, "rb") as file:
        start = time.perf_counter()
        child = subprocess.Popen([program], stdin=file, stdout=subprocess.DEVNULL)
        _, status, used = os.wait4(child.pid, 0)
        if status != 0:
            sys.exit(f"{program}: failed")
        return used.ru_utime + used.ru_stime, time.perf_counter() - start


def main():
    blocks, path, proved, plain = int(sys.argv[1]), *sys.argv[2:5]
    times = {proved: [], plain: []}
    for _ in range(ROUNDS):
        for program in (proved, plain):
            times[program].append(once(program, path))
    middle = {program: statistics.median(cpu for cpu, _ in all_) for program, all_ in times.items()}
    for name, program in (("values", proved), ("plain C", plain)):
        seconds = middle[program]
        best = min(clock for _, clock in times[program])
        print(f"{name:8} {seconds:.3f} s  {blocks / seconds / 1e6:.2f} million blocks a second  {seconds / blocks * 1e9:.0f} ns a block  (by the clock, at best {best:.3f} s)")
    print(f"plain C's time / values' time: {middle[plain] / middle[proved]:.2f} (medians of {ROUNDS})")


main()
