#!/usr/bin/env python3
"""Runs the gate, keeps its output in a file, and prints the processor seconds of all its processes at each step.

    python3 bench/gate_times.py LOG rt ci mls_reader
"""
import os
import resource
import subprocess
import sys
import time

TICKS = os.sysconf("SC_CLK_TCK")


def seconds_of(root):
    """The processor seconds of a process, of those that it has started, and of those that have ended among them."""
    children, ticks = {}, {}
    for name in filter(str.isdigit, os.listdir("/proc")):
        try:
            with open(f"/proc/{name}/stat") as file:
                fields = file.read().rpartition(")")[2].split()
        except OSError:
            continue
        children.setdefault(int(fields[1]), []).append(int(name))
        ticks[int(name)] = sum(map(int, fields[11:15]))
    total, left = 0, [root]
    while left:
        process = left.pop()
        total += ticks.get(process, 0)
        left += children.get(process, [])
    return total / TICKS


def main():
    begin = time.time()
    gate = subprocess.Popen(sys.argv[2:], stdout=subprocess.PIPE, stderr=subprocess.STDOUT, text=True)
    with open(sys.argv[1], "w") as log:
        for line in gate.stdout:
            log.write(line)
            log.flush()
            if line.startswith("rt:"):
                passed = time.time() - begin
                print(f"{seconds_of(gate.pid):8.1f} s of processor, {passed:7.1f} s: {line[4:90].rstrip()}", flush=True)
    status = gate.wait()
    used = resource.getrusage(resource.RUSAGE_CHILDREN)
    print(f"{used.ru_utime + used.ru_stime:8.1f} s of processor in all, status {status}")
    return status


if __name__ == "__main__":
    sys.exit(main())
