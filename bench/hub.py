#!/usr/bin/env python3
"""Measures the program of bench/hub, whose path is the first word: a hub's messages beside a server's turns."""

import argparse
import os
import statistics
import subprocess
import sys
import tempfile

sys.dont_write_bytecode = True
from memory import peak_of

SEATS = 1024


def run(program, word, place, sessions, writes):
    """How many messages were accepted, in how many microseconds, and the peak memory of the run in MB."""
    process = subprocess.Popen([program, word, place, str(sessions), str(writes)], stdout=subprocess.PIPE, text=True)
    peak = peak_of(process)
    said = process.stdout.read().split()
    process.stdout.close()
    if process.wait() != 0 or said[0] != word:
        sys.exit("the program failed: %s %s" % (word, place))
    return int(said[1]), int(said[2]), peak


def speed_of(program, word, place, sessions, writes):
    """Writes a second; the openings of the sessions aren't timed."""
    accepted, micros, _ = run(program, word, place, sessions, writes // sessions)
    assert accepted == sessions + writes // sessions * sessions
    return (accepted - sessions) / micros * 1e6


def remove(path):
    for name in (path, path + "-wal", path + "-shm"):
        if os.path.exists(name):
            os.remove(name)


def time_writes(program, place, rounds, writes, path):
    kinds = [(word, sessions) for sessions in (1, 8, 64) for word in ("turns", "hub")]
    found = {kind: [] for kind in kinds}
    for _ in range(rounds):
        for word, sessions in kinds:
            found[word, sessions].append(speed_of(program, word, path, sessions, writes))
            remove(path)
    print("%d writes %s, %d rounds: writes a second, the middle (worst to best)" % (writes, place, rounds))
    print("%8s %32s %32s %8s" % ("sessions", "one thread, without a hub", "hub, a thread for each", "ratio"))
    for sessions in (1, 8, 64):
        turns, hub = found["turns", sessions], found["hub", sessions]
        ratio = statistics.median(ours / plain for ours, plain in zip(hub, turns))
        cells = ["%.0f (%.0f to %.0f)" % (statistics.median(xs), min(xs), max(xs)) for xs in (turns, hub)]
        print("%8d %32s %32s %8.2f" % (sessions, cells[0], cells[1], ratio))


def weigh_seats(program):
    _, _, none = run(program, "seats", "memory", 0, 0)
    _, _, many = run(program, "seats", "memory", SEATS, 0)
    print("%d seats at once: %.1f MB above a hub without any, %.1f KB each" % (
        SEATS, many - none, (many - none) * 1024 / SEATS))


def main():
    parser = argparse.ArgumentParser()
    parser.add_argument("program")
    parser.add_argument("--folder")
    parser.add_argument("--rounds", type=int, default=7)
    parser.add_argument("--writes", type=int, default=20000)
    words = parser.parse_args()
    program = os.path.abspath(words.program)
    time_writes(program, "over a keeper in memory", words.rounds, words.writes, "memory")
    with tempfile.TemporaryDirectory(dir=words.folder) as folder:
        time_writes(program, "over a keeper on a file", words.rounds, words.writes // 4, os.path.join(folder, "hub"))
    weigh_seats(program)


main()
