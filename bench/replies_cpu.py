#!/usr/bin/env python3
"""Runs a program on a script, and prints its CPU time between its first replies and between its last ones, in milliseconds.

The words are the script, the number of replies that it comes to, how many of them are the first and how many the last, and the program
with its words. The first reply of all is left out, with the start before it. The replies go through a pipe that holds one write, so the
program is one statement ahead at most when the time is read that its process was on a processor. It fails where the program does not
end with 0 after as many replies, or has not ended after twenty minutes.
"""
import fcntl
import os
import subprocess
import sys
import threading

ONE_WRITE = 4096  # the least bytes of a pipe: a page, which is taken by one write


def cpu_of(process):
    """The milliseconds that a process was on a processor."""
    with open(f"/proc/{process.pid}/schedstat", encoding="ascii") as counts:
        return int(counts.read().split()[0]) / 1e6


def main():
    script, replies, part = sys.argv[1], int(sys.argv[2]), int(sys.argv[3])
    wanted = {1, part + 1, replies - part, replies}
    found, number = {}, 0
    output, given = os.pipe2(os.O_DIRECT | os.O_CLOEXEC)
    fcntl.fcntl(given, fcntl.F_SETPIPE_SZ, ONE_WRITE)
    with open(script, "rb") as source, subprocess.Popen(sys.argv[4:], stdin=source, stdout=given) as process:
        os.close(given)
        alarm = threading.Timer(1200, process.kill)
        alarm.start()
        while os.read(output, ONE_WRITE):
            number += 1
            if number in wanted:
                found[number] = cpu_of(process)
        process.wait()
        alarm.cancel()
    if process.returncode or set(found) != wanted or number != replies:
        sys.exit(f"{sys.argv[4]} ended with {process.returncode} after {number} replies")
    print(f"{found[part + 1] - found[1]:.1f} {found[replies] - found[replies - part]:.1f}")


main()
