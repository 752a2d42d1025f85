#!/usr/bin/env python3
"""The 500 schedules of a server that `crates/tests_of_server/src/schedule_lists.rt` stores: prints that file, always the same.

A line is turns, separated by `; `. A turn is a second and an input: `h C A` (client C, attempt A, says hello), `o C A Q N PATH VALUE` (a
set), `t C A Q N PATH EXPECT VALUE` (a transaction), `l C A Q PATH VALUE` (leaves a set), `c C A Q PATH` (takes it back), `+ C A Q PATH`
and `- C A Q PATH` (listens, and no more), `b C A Q` (bye), `x C A` (the session was lost), `r C` (the client's session ends at a
restart), and `k` (a tick). Most inputs are those of a client that counts right; some come twice, and some are late. All come within
a lease."""
import random

CLIENTS = ["al", "bo", "cy"]
PATHS = ["/", "/a", "/a/b", "/b", "/c"]
VALUES = ["null", "1", "true", '{"b":2}', '{".sv":"timestamp"}']
KEPT = VALUES[:4]


class Client:
    def __init__(self, name):
        self.name, self.attempt, self.open, self.q, self.n = name, 0, False, 0, 0

    def hello(self):
        self.attempt, self.open, self.q = self.attempt + 1, True, 0
        return "h %s %d" % (self.name, self.attempt)

    def message(self, kind, rest):
        self.q += 1
        return "%s %s %d %d%s" % (kind, self.name, self.attempt, self.q, rest)


def write(r, client):
    # a write that is new, or comes again, or leaves a gap
    last = client.n
    n = last + 1 if last == 0 or r.random() < 0.7 else r.choice([last, last, 1, last + 2])
    if n > last + 1:
        return "o %s %d %d %d /a 1" % (client.name, client.attempt, client.q + 1, n)
    client.n = max(n, last)
    if r.random() < 0.7:
        return client.message("o", " %d %s %s" % (n, r.choice(PATHS), r.choice(VALUES)))
    return client.message("t", " %d %s %s %s" % (n, r.choice(PATHS), r.choice(KEPT), r.choice(KEPT)))


def turn(r, client):
    kind = r.random()
    if not client.open or kind < 0.06:
        return client.hello()
    if kind < 0.4:
        return write(r, client)
    if kind < 0.55:
        return client.message("l", " %s %s" % (r.choice(PATHS), r.choice(VALUES)))
    if kind < 0.63:
        return client.message("c", " " + r.choice(PATHS))
    if kind < 0.78:
        return client.message("+", " " + r.choice(PATHS))
    if kind < 0.83:
        return client.message("-", " " + r.choice(PATHS))
    if kind < 0.87:
        return "k"
    client.open = False
    if kind < 0.91:
        return client.message("b", "")
    return "x %s %d" % (client.name, client.attempt) if kind < 0.95 else "r " + client.name


def schedule(r):
    clients = [Client(name) for name in CLIENTS]
    second, turns = 0, []
    for _ in range(r.randint(3, 9)):
        second += r.randint(0, 3)
        last = turns[-1].split(" ", 1)[1] if turns and r.random() < 0.06 else turn(r, r.choice(clients))
        turns.append("%d %s" % (second, last))
    return "; ".join(turns)


def main():
    r = random.Random(2)
    lines = [schedule(r) for _ in range(500)]
    print("//! Schedules of a server, one a line, as `bench/schedule_lists.py` prints them.\n")
    print("/// The schedules.")
    print('pub(crate) const SCHEDULES: &str = r#"%s"#;' % "\n".join(lines))


if __name__ == "__main__":
    main()
