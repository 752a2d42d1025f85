"""A short model of a server, by which scripts are aimed.

It tells the generator which packets there are, so that most lines of a script name one. It decides
nothing: what is right is what `presence sim` prints. Where this model is wrong, a script names a
packet that isn't there, and that is a line like others.
"""

from __future__ import annotations

import json
from typing import Any, Dict, List, Optional, Tuple

Path = Tuple[str, ...]
MOST_MOMENT = 2**53 - 1
LEAST_NUMBER = -(2**63)
GREATEST_NUMBER = 2**63 - 1
LEASE = 60_000
MOST_ROWS = 256
MOST_LISTENS = 256


def path_of(text: str) -> Path:
    """The path of a text."""
    return tuple(piece for piece in text.split("/") if piece)


def _text(path: Path) -> str:
    return "/" + "/".join(path)


def _meet(one: Path, other: Path) -> bool:
    shorter = min(len(one), len(other))
    return one[:shorter] == other[:shorter]


def at(tree: Any, path: Path) -> Any:
    """What stands at the path."""
    for key in path:
        if not isinstance(tree, dict) or key not in tree:
            return None
        tree = tree[key]
    return tree


def put(tree: Any, path: Path, value: Any) -> Any:
    """The tree with the value at the path."""
    if not path:
        return value
    if not isinstance(tree, dict):
        if value is None:
            return tree
        tree = {}
    made = dict(tree)
    child = put(tree.get(path[0]), path[1:], value)
    made.pop(path[0], None)
    if child is not None:
        made[path[0]] = child
    return made or None


def settled(draft: Any, held: Any, moment: int) -> Any:
    """The value of the draft where this value stands: the moment for a timestamp, the sum with the
    whole number at its place for an increment."""
    if not isinstance(draft, dict):
        return draft
    if ".sv" not in draft:
        return {key: settled(child, at(held, (key,)), moment) for key, child in draft.items()}
    if draft[".sv"] == "timestamp":
        return moment
    is_number = isinstance(held, int) and not isinstance(held, bool)
    total = draft[".sv"]["increment"] + (held if is_number else 0)
    return max(LEAST_NUMBER, min(total, GREATEST_NUMBER))


def same(one: Any, other: Any) -> bool:
    """Whether two values are equal; a truth is no number."""
    return json.dumps(one, sort_keys=True) == json.dumps(other, sort_keys=True)


def puts_of(op: Dict[str, Any]) -> List[Tuple[Path, Any]]:
    """The drafts of an operation at their paths, in path order."""
    path = path_of(op["path"])
    if op["op"] != "update":
        return [(path, op["value"])]
    places = [(path + path_of(name), draft) for name, draft in op["values"].items()]
    return sorted(places, key=lambda place: place[0])


class _Session:
    def __init__(self, s: List[Any], heard: int) -> None:
        self.s = s
        self.heard = heard
        self.q = 0
        self.r = 0
        self.plan: List[Tuple[str, Path, Any]] = []
        self.listens: set = set()


class ServerModel:
    """A server that knows its log's outcome alone."""

    def __init__(self) -> None:
        self.is_stopped = False
        self._number = 0
        self._moment = 0
        self._tree: Any = None
        self._open: Dict[str, _Session] = {}
        self._last: Dict[str, Tuple[int, int]] = {}
        self._writes: Dict[str, List[Tuple[int, Any]]] = {}
        self._answers: List[Dict[str, Any]] = []

    # ---- inputs: each gives the texts of the packets that go out

    def up(self, text: str, now: int, ending: str) -> List[str]:
        """A packet comes. `ending` is up, up-stop or up-refuse."""
        if self.is_stopped:
            return []
        message = json.loads(text)
        if ending == "up-refuse" and self._makes_batch(message):
            return [self._fault(message["s"], 6)]
        self._begin(now)
        self._receive(message)
        if ending == "up-stop":
            self.is_stopped = True
            return []
        return self._taken()

    def lose(self, client: str, now: int) -> List[str]:
        """The connection of a client's session is lost."""
        if self.is_stopped or client not in self._open:
            return []
        self._begin(now)
        self._end(client, "lost")
        return self._taken()

    def tick(self, now: int) -> List[str]:
        """The first session whose lease ran out ends."""
        if self.is_stopped:
            return []
        moment = max(min(now, MOST_MOMENT), self._moment)
        for client in sorted(self._open):
            if self._open[client].heard + LEASE < moment:
                self._begin(now)
                self._end(client, "lease")
                return self._taken()
        return []

    def restart(self, now: int) -> None:
        """The server starts again. Its answers are lost."""
        self.is_stopped = False
        for client in sorted(self._open):
            self._begin(now)
            self._end(client, "restart")
        self._taken()

    # ---- steps

    def _begin(self, now: int) -> None:
        self._moment_now = max(min(now, MOST_MOMENT), self._moment)

    def _taken(self) -> List[str]:
        made, self._answers = self._answers, []
        return [json.dumps(message, sort_keys=True) for message in made]

    def _fault(self, s: List[Any], code: int, **more: Any) -> str:
        return json.dumps({"m": "fault", "s": s, "code": code, **more})

    def _say(self, word: str, s: List[Any], **fields: Any) -> None:
        self._answers.append({"m": word, "s": s, **fields})

    def _tell(self, session: _Session, word: str, **fields: Any) -> None:
        session.r += 1
        self._say(word, session.s, r=session.r, z=self._number, **fields)

    def _refused(self, message: Dict[str, Any]) -> Optional[Dict[str, Any]]:
        # The fields of the fault that refuses a message.
        s = message["s"]
        session = self._open.get(s[0])
        if message["m"] == "hello":
            last = self._last.get(s[0])
            return {"code": 2, "last": list(last)} if last and (s[1], s[2]) <= last else None
        if session is None or session.s != s:
            return {"code": 3}
        if message["m"] == "beat" or message["q"] <= session.q:
            return None
        if message["q"] != session.q + 1:
            return {"code": 4}
        if message["m"] == "op" and message["n"] > len(self._writes.get(s[0], [])) + 1:
            return {"code": 4}
        return None

    def _makes_batch(self, message: Dict[str, Any]) -> bool:
        if self._refused(message) is not None:
            return False
        if message["m"] == "hello":
            return True
        return message["m"] != "beat" and message["q"] > self._open[message["s"][0]].q

    def _receive(self, message: Dict[str, Any]) -> None:
        s = message["s"]
        fault = self._refused(message)
        if fault is not None:
            self._say("fault", s, **fault)
            return
        if message["m"] == "hello":
            self._hello(s)
            return
        session = self._open[s[0]]
        session.heard = max(session.heard, self._moment_now)
        if message["m"] == "beat" or message["q"] <= session.q:
            return
        session.q += 1
        self._moment = self._moment_now
        getattr(self, "_" + message["m"])(session, message)

    def _hello(self, s: List[Any]) -> None:
        if s[0] in self._open:
            self._end(s[0], "superseded")
        self._moment = self._moment_now
        self._number += 1
        self._open[s[0]] = _Session(s, self._moment_now)
        self._last[s[0]] = (s[1], s[2])
        self._say("welcome", s, z=self._number, ops=len(self._writes.get(s[0], [])))

    def _write(self, rows: List[Tuple[Path, Any]]) -> None:
        # After the entry the rows are written, and listeners get a Push.
        self._number += 1
        for path, value in rows:
            self._tree = put(self._tree, path, value)
        for client in sorted(self._open):
            session = self._open[client]
            touched = [p for p in sorted(session.listens) if any(_meet(p, w) for w, _ in rows)]
            if touched:
                values = [[_text(path), at(self._tree, path)] for path in touched]
                self._tell(session, "push", values=values)

    def _op(self, session: _Session, message: Dict[str, Any]) -> None:
        writes = self._writes.setdefault(session.s[0], [])
        n = message["n"]
        if n <= len(writes):
            self._number += 1
        else:
            writes.append((self._number + 1, self._carry_out(message["op"])))
        done, out = writes[n - 1]
        self._tell(session, "reply", q=session.q, n=n, done=done, out=out)

    def _carry_out(self, op: Dict[str, Any]) -> Any:
        if op["op"] == "tx":
            held = at(self._tree, path_of(op["path"]))
            if not same(held, op["expect"]):
                self._number += 1
                return {"stale": held}
        before, now = self._tree, self._moment_now
        rows = [(path, settled(draft, at(before, path), now)) for path, draft in puts_of(op)]
        self._write(rows)
        return "wrote"

    def _plan_after(self, plan: List[Any], puts: List[Tuple[Path, Any]]) -> List[Any]:
        for path, draft in puts:
            plan = [row for row in plan if row[1][: len(path)] != path]
            plan.append(("put", path, draft))
        return plan

    def _act(self, session: _Session, plan: List[Any]) -> None:
        self._number += 1
        if len(plan) > MOST_ROWS:
            self._tell(session, "denied", q=session.q, why=1)
            return
        session.plan = plan
        self._tell(session, "armed", q=session.q)

    def _left(self, session: _Session, message: Dict[str, Any]) -> None:
        self._act(session, self._plan_after(session.plan, puts_of(message["op"])))

    def _cancel(self, session: _Session, message: Dict[str, Any]) -> None:
        path = path_of(message["path"])
        plan = [row for row in session.plan if row[1][: len(path)] != path]
        if any(row[0] == "put" and path[: len(row[1])] == row[1] for row in plan):
            plan.append(("keep", path, None))
        self._act(session, plan)

    def _on(self, session: _Session, message: Dict[str, Any]) -> None:
        path = path_of(message["path"])
        self._number += 1
        if path not in session.listens and len(session.listens) >= MOST_LISTENS:
            self._tell(session, "denied", q=session.q, why=2)
            return
        session.listens.add(path)
        value = at(self._tree, path)
        self._tell(session, "snap", q=session.q, path=_text(path), value=value)

    def _off(self, session: _Session, message: Dict[str, Any]) -> None:
        self._number += 1
        session.listens.discard(path_of(message["path"]))
        self._tell(session, "offdone", q=session.q)

    def _bye(self, session: _Session, message: Dict[str, Any]) -> None:
        self._end(session.s[0], "bye")

    def _end(self, client: str, why: str) -> None:
        self._moment = self._moment_now
        session = self._open[client]
        before = after = self._tree
        rows = []
        for kind, path, draft in session.plan:
            value = at(before, path)
            if kind == "put":
                value = settled(draft, at(after, path), self._moment_now)
            after = put(after, path, value)
            rows.append((path, value))
        self._write(rows)
        del self._open[client]
        self._tell(session, "gone", why=why)
