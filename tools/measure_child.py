"""Runs a program and tells what it took: a small process that `tools/measure` puts between itself and the program.

    python3 -I -S tools/measure_child.py SECONDS BYTES OUT ERROR COMMAND..

Prints its processor time in seconds, its largest memory in KiB, and its status, or the signal below 0. Linux counts into a
program's largest memory what the process had that it was forked from, so that one has to be small. SECONDS of processor and
BYTES of memory are limits, and 0 is none.
"""

import os
import resource
import sys


def set_limits(seconds, memory):
    resource.setrlimit(resource.RLIMIT_CORE, (0, 0))
    if seconds:
        resource.setrlimit(resource.RLIMIT_CPU, (seconds, seconds + 5))
    if memory:
        resource.setrlimit(resource.RLIMIT_DATA, (memory, memory))


def become(seconds, memory, out, error, command):
    """Ends in the program, or with status 127 where it does not start."""
    try:
        for descriptor, path in ((1, out), (2, error)):
            os.dup2(os.open(path, os.O_WRONLY | os.O_CREAT | os.O_TRUNC, 0o600), descriptor)
        os.dup2(os.open(os.devnull, os.O_RDONLY), 0)
        set_limits(seconds, memory)
        os.execv(command[0], command)
    finally:
        os._exit(127)


def main(words):
    seconds, memory, out, error, *command = words
    child = os.fork()
    if child == 0:
        become(int(seconds), int(memory), out, error, command)
    _, status, used = os.wait4(child, 0)
    print(used.ru_utime + used.ru_stime, used.ru_maxrss, os.waitstatus_to_exitcode(status))


if __name__ == "__main__":
    main(sys.argv[1:])
