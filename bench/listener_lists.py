#!/usr/bin/env python3
"""Lists of calls of listeners, one a line, over which the tree of listeners is compared with a list that is walked.

`python3 bench/listener_lists.py > crates/tests_of_indexes/src/tests/listener_lists.rt` writes the 500 that are kept; the same
seed writes the same. A line is calls, separated by `; `: `on SESSION PATH`, `off SESSION PATH`, `drop SESSION`,
`w PATH PATH ..` (one write at each path), and `N on SESSION PATH`, which is N calls with the numbers 0 to N - 1 behind
the path. Each line ends with a write at the root, which touches all who listen.
"""
import random

LINES = 500
SEED = 1
SESSIONS = ["a/1.1", "a/1.2", "a/10.1", "B/1.1", "b/2.1"]
KEYS = ["a", "b", "ab", "c"]
DEEP = "/" + "/".join("abcd"[i % 4] for i in range(32))

# What a line of chance seldom comes to.
FIRST = [
    "w /a",
    "on a/1.1 /; w /a; off a/1.1 /; w /a",
    "on a/1.1 /a; on a/1.1 /a; off a/1.1 /a; w /a",
    "off a/1.1 /a; drop a/1.1; on b/2.1 /a; drop a/1.1; off a/1.1 /a; w /a",
    "on a/1.1 /a/b; on a/1.2 /a; on B/1.1 /a/b/c; w /a; w /a/b; w /a/b/c; w /a/c; off a/1.1 /a/b; w /a/b/c/d",
    "on a/1.1 /a/b/c; off a/1.1 /a/b; off a/1.1 /a; w /a; off a/1.1 /a/b/c; w /a",
    "on a/1.1 /b; on b/2.1 /a; on a/1.1 /a/z; on B/1.1 /; w /a/z /b /a; w /a /a; w /c",
    f"on a/1.1 {DEEP}; on a/1.2 {DEEP[:-2]}; w {DEEP}; w /; off a/1.1 {DEEP}; w {DEEP}; on a/1.1 {DEEP}; drop a/1.2; w /a",
    "255 on a/1.1 /p/; on a/1.1 /q; on a/1.1 /r; on a/1.1 /p/7; off a/1.1 /p/7; on a/1.1 /r; w /r /q /p/7",
    "257 on a/1.1 /p; on a/1.1 /p3; on a/1.2 /p3; w /p3 /p256 /p255; drop a/1.1; w /p3; on a/1.1 /q",
    "256 on a/1.1 /a/b/; 256 on a/1.2 /a/b/; 256 on b/2.1 /a/b/; w /a/b/255/x; drop a/1.2; w /a/b/255; w /a/b/256",
]


def path(r, most):
    return "/" + "/".join(r.choice(KEYS) for _ in range(r.randint(0, most)))


def call(r):
    kind, session = r.random(), r.choice(SESSIONS)
    if kind < 0.5:
        return f"on {session} {path(r, 4)}"
    if kind < 0.65:
        return f"off {session} {path(r, 3)}"
    if kind < 0.72:
        return f"drop {session}"
    return "w " + " ".join(path(r, 4) for _ in range(r.randint(1, 3)))


def line(r):
    calls = [call(r) for _ in range(r.randint(2, 9))]
    if r.random() < 0.01:
        calls.insert(0, f"{r.choice([255, 256, 257])} on a/1.1 {path(r, 2)}")
    return "; ".join(calls)


def main():
    r = random.Random(SEED)
    lines = FIRST + [line(r) for _ in range(LINES - len(FIRST))]
    text = "\n".join(f"{each}; w /" for each in lines)
    print("//! 500 lists of calls, written by `bench/listener_lists.py`.\n")
    print(f'pub(crate) const LISTS: &str = "{text}";')


main()
