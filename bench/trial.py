#!/usr/bin/env python3
"""How long `flow trial` takes beside a loop in Python that makes the same contents, events and log entries in memory.

The loop knows no queue, no order and no disk: it makes each content and each block, and takes its SHA-256. What is told
is the processor's time of both, their ratio, and the program's peak of memory.
"""

import hashlib
import os
import pathlib
import subprocess
import sys
import time

sys.path.insert(0, str(pathlib.Path(__file__).resolve().parent.parent / "tests"))
sys.dont_write_bytecode = True

from machine import machine
from support import DONE, Memory, find_program, in_memory, need, options, work_folder

COUNTS = (1_000, 3_000, 10_000)

# Bytes of an event and of an entry for one file, as docs/STORE.md has them, with a block's length, kind and digest.
EVENT, ENTRY = 150, 250


def block(size, number):
    """A block with its digest."""
    payload = number.to_bytes(8, "big") * (size // 8)
    return payload + hashlib.sha256(payload).digest()


def session(blocks, contents, events):
    """The contents, the events and the entry of a session."""
    for content in contents:
        blocks.append(hashlib.sha256(content).digest())
    for _ in range(events):
        blocks.append(block(EVENT, len(blocks)))
    blocks.append(block(ENTRY, len(blocks)))


def loop(count):
    """Makes what a trial of so many files makes: its contents, and the blocks of its events and entries."""
    blocks = []
    for number in range(count):
        content = b"a%d\nb\nc\n" % number
        session(blocks, [content], 1)
        session(blocks, [], 1)
        if number % 10 == 0:
            session(blocks, content.splitlines(keepends=True), 2)
            session(blocks, [content], 4)
        session(blocks, [], 2)
    return blocks


def timed(program, folder, count):
    """The processor's time of a trial, and its peak of memory."""
    child = subprocess.Popen([program, "trial", str(count)], cwd=folder, stdin=subprocess.DEVNULL,
                             stdout=subprocess.DEVNULL)
    memory = Memory(child.pid)
    _, ended, used = os.wait4(child.pid, 0)
    memory.stop()
    need(os.waitstatus_to_exitcode(ended) == DONE, "a trial doesn't end with 0")
    return used.ru_utime + used.ru_stime, memory.peak


def main():
    given = options(__doc__).parse_args()
    program = find_program(given.program)
    print(machine())
    print("\n| files | seconds | of the loop | ratio | MB |\n|---|---|---|---|---|")
    with work_folder(in_memory(given.folder)) as folder:
        for count in COUNTS:
            begun = time.process_time()
            loop(count)
            by_loop = time.process_time() - begun
            seconds, peak = timed(program, folder, count)
            print(f"| {count:,} | {seconds:.2f} | {by_loop:.2f} | {seconds / by_loop:.2f} | {peak / 1e6:.1f} |")


if __name__ == "__main__":
    main()
