#!/usr/bin/env python3
"""The 500 lists of calls of a plan that `crates/tests_of_indexes/src/tests/plan_lists.rt` stores: prints that file, always the same.

A line is calls, separated by `; `: `p PATH DRAFT`, `u PATH DRAFT, PATH DRAFT, ..` (in path order, apart), `c PATH`, `e TREE` (the
session ends with the tree), and `N p PATH DRAFT`, where % is each number from 0 to N - 1 in turn. The calls are numbered from 1 on."""
import json
import random

KEYS = ["a", "b", "c", "d"]
CASES = [
    'p /u {"a":1,"b":2}; c /u/a; e {"u":{"a":9,"c":3}}',  # a cancelled child keeps its value
    'p /a {"b":1,"c":2}; c /a/b; e {"a":5}',  # a cancel below a scalar
    'p /a/b 1; c /a/b; e {"a":5}',  # and one without a put above it
    '256 p /p/% 1; p /q 1; u /p/7 2, /q 3; p /p/7 2; c /p/7; p /q 1; p /r 1; e null',  # the limit, and a place that stands
    '255 p /p/% 1; u /a 1, /b 2; u /a 1, /p/9 2; c /a/b; u /a 1, /p 2; e null',
    '256 p /p/% {"a":1}; c /p/3/x; c /p/3; c /p/4/a; c /p; e {"p":{"3":1}}',
    '256 p /p/% 1; p / 2; c /p/3; e {"p":{"3":1}}',
    'p /x {"a":1}; c /x/a; p /x 2; e {"x":1}',  # a put in the place of one with a cancelled child
    'p /a null; c /a/b; c /a/b/c; c /a; e {"a":{"b":{"c":7}}}',
    'p /a null; c /a/b; p /a/b/c 1; c /a/b; e {"a":{"b":{"c":7}}}',
    'p /a 1; p /a/b 2; p /a/b/c 3; p /a 4; e null',
    'p /a 1; p /a/b 2; c /a/b/c; u /a/b 3, /a/c 4; c /a/c; e {"a":{"b":{"c":7},"c":8}}',
    'u /a 1, /b 2, /c 3; u /a/a 4, /b 5, /d 6; c /b; c /; e {"b":1}',
    'p / {"a":{"b":1}}; c /a/b; p /a/b 2; c /a; e {"a":{"b":3}}',
]


def path(r, low, high):
    return "/" + "/".join(r.choice(KEYS) for _ in range(r.randint(low, high)))


def draft(r, depth=0):
    if depth < 1 and r.random() < 0.3:
        return {key: draft(r, depth + 1) for key in KEYS if r.random() < 0.5} or None
    return r.choice([None, 1, -7, True, "x", {".sv": "timestamp"}])


def tree(r, depth=0):
    if depth < 2 and r.random() < 0.6:
        return {key: tree(r, depth + 1) for key in KEYS if r.random() < 0.6} or None
    return r.choice([None, 5, "t", False])


def keys(text):
    return [key for key in text.split("/") if key]


def meet(one, other):
    shared = min(len(one), len(other))
    return one[:shared] == other[:shared]


def text(value):
    return json.dumps(value, separators=(",", ":"))


def places(r):
    found = []
    for place in sorted(keys(path(r, 1, 3)) for _ in range(4)):
        if not any(meet(place, other) for other in found):
            found.append(place)
    return ", ".join("/%s %s" % ("/".join(place), text(draft(r))) for place in found)


def calls(r):
    if r.random() < 0.01:
        yield "%d p /%s/%% %s" % (r.choice([200, 255, 256]), r.choice(KEYS), text(draft(r)))
    for _ in range(r.randint(1, 10)):
        kind = r.random()
        if kind < 0.45:
            yield "p %s %s" % (path(r, 0, 4), text(draft(r)))
        elif kind < 0.6:
            yield "u " + places(r)
        elif kind < 0.9:
            yield "c " + path(r, 0, 4)
        else:
            yield "e " + text(tree(r))
    yield "e " + text(tree(r))


def main():
    r = random.Random(1)
    lines = CASES + ["; ".join(calls(r)) for _ in range(500 - len(CASES))]
    print("//! Calls of plans, a list a line, as `bench/plan_lists.py` prints them.\n")
    print("/// The lists.")
    print('pub(crate) const LISTS: &str = r#"%s"#;' % "\n".join(lines))


if __name__ == "__main__":
    main()
