"""Messages to the server, printed, and messages to a client, read."""

from __future__ import annotations

import re
from dataclasses import dataclass
from typing import (
    Any,
    Callable,
    Dict,
    List,
    Mapping,
    NamedTuple,
    Optional,
    Sequence,
    Tuple,
    Union,
)

from .errors import WriteError
from .strict_json import NotJson, read, text_of
from .values import Draft, Path, Place, Tree, parse_path, path_name, path_text, read_tree, tree_json

MOST_NUMBER = 2**53 - 1
LONGEST_UP = 1_048_576
CODE_BAD = 1
CODE_OLD = 2
CODE_SESSION = 3
CODE_ORDER = 4
CODE_BUSY = 6
DENIED_PLAN = 1
DENIED_LISTENS = 2
_REASONS = frozenset(("bye", "lost", "lease", "superseded", "slow", "restart"))
_CLIENT_ID = re.compile("[A-Za-z0-9_-]{1,128}")


def is_client_id(text: str) -> bool:
    """Whether the text is 1 to 128 of `A-Z` `a-z` `0-9` `_` `-`."""
    return _CLIENT_ID.fullmatch(text) is not None


class Session(NamedTuple):
    """One session of a client."""

    client: str
    incarnation: int
    attempt: int


# ---- to the server


class Op(NamedTuple):
    """An operation: its path, and the text of its JSON."""

    path: Path
    text: str


def _op(word: str, path: Path, **parts: Any) -> Op:
    return Op(path, text_of({"op": word, "path": path_text(path), **parts}))


def set_op(path: Path, draft: Draft) -> Op:
    """Puts the draft at the path; None removes what is there."""
    return _op("set", path, value=tree_json(draft))


def update_op(path: Path, places: Sequence[Place]) -> Op:
    """Puts the drafts at their places below the path."""
    values = {path_name(place): tree_json(draft) for place, draft in places}
    return _op("update", path, values=values)


def transaction_op(path: Path, expect: Tree, draft: Draft) -> Op:
    """Puts the draft at the path, where that holds the expected value."""
    return _op("tx", path, expect=tree_json(expect), value=tree_json(draft))


def up_text(word: str, session: Session, **fields: Any) -> str:
    """The text of a message to the server that holds no operation."""
    return text_of({"m": word, "s": session, **fields})


def write_text(session: Session, q: int, n: int, op: Op) -> str:
    """The text of an Op. Its names stand in byte order."""
    return f'{{"m":"op","n":{n},"op":{op.text},"q":{q},"s":{text_of(session)}}}'


def left_text(session: Session, q: int, op: Op) -> str:
    """The text of a Left. Its names stand in byte order."""
    return f'{{"m":"left","op":{op.text},"q":{q},"s":{text_of(session)}}}'


def longest_bytes(session: Session, op: Op) -> int:
    """The bytes of the longest message that may carry the operation."""
    return len(write_text(session._replace(attempt=MOST_NUMBER), MOST_NUMBER, MOST_NUMBER, op).encode())


# ---- to a client


class NotAMessage(ValueError):
    """The text is no message to a client. `field` names the field that is missing or wrong, where
    the message is one of a client's otherwise."""

    def __init__(self, about: str, field: Optional[str] = None) -> None:
        super().__init__(about)
        self.field = field


@dataclass(frozen=True)
class Welcome:
    session: Session
    z: int
    ops: int


@dataclass(frozen=True)
class Reply:
    session: Session
    r: int
    z: int
    q: int
    n: int
    done: int
    wrote: bool
    held: Tree  # what a stale transaction found, None where it wrote


@dataclass(frozen=True)
class Armed:
    session: Session
    r: int
    z: int
    q: int


@dataclass(frozen=True)
class Denied:
    session: Session
    r: int
    z: int
    q: int
    why: int


@dataclass(frozen=True)
class Snap:
    session: Session
    r: int
    z: int
    q: int
    path: Path
    value: Tree


@dataclass(frozen=True)
class Push:
    session: Session
    r: int
    z: int
    values: Tuple[Tuple[Path, Tree], ...]


@dataclass(frozen=True)
class OffDone:
    session: Session
    r: int
    z: int
    q: int


@dataclass(frozen=True)
class Gone:
    session: Session
    r: int
    z: int
    why: str


@dataclass(frozen=True)
class Fault:
    session: Optional[Session]
    code: int
    last: Optional[Tuple[int, int]]


Down = Union[Welcome, Reply, Armed, Denied, Snap, Push, OffDone, Gone, Fault]


class _Fields:
    """The fields of a message, each read once, in the order in which they are checked."""

    def __init__(self, members: Mapping[str, Any]) -> None:
        self._members = members

    def take(self, name: str, of: Callable[[Any], Any]) -> Any:
        # `of` gives the field's value in a list of one, or None where it is refused.
        found = of(self._members[name]) if name in self._members else None
        if found is None:
            raise NotAMessage(f"the field {name} is missing or wrong", name)
        return found[0]

    def number(self, name: str) -> int:
        number: int = self.take(name, _number)
        return number

    def session(self) -> Session:
        session: Session = self.take("s", _session)
        return session

    def answer(self) -> Tuple[Session, int, int, int]:
        return self.session(), self.number("r"), self.number("z"), self.number("q")


def _is_whole(value: Any) -> bool:
    return isinstance(value, int) and not isinstance(value, bool)


def _number(value: Any) -> Optional[List[int]]:
    return [value] if _is_whole(value) and 1 <= value <= MOST_NUMBER else None


def _count(value: Any) -> Optional[List[int]]:
    return [value] if _is_whole(value) and 0 <= value <= MOST_NUMBER else None


def _numbers(values: List[Any]) -> Optional[List[int]]:
    return values if all(_number(value) is not None for value in values) else None


def _session(value: Any) -> Optional[List[Session]]:
    if not isinstance(value, list) or len(value) != 3 or not isinstance(value[0], str):
        return None
    if not is_client_id(value[0]) or _numbers(value[1:]) is None:
        return None
    return [Session(value[0], value[1], value[2])]


def _session_or_null(value: Any) -> Optional[List[Optional[Session]]]:
    if value is None:
        return [None]
    found = _session(value)
    return None if found is None else [found[0]]


def _stamp(value: Any) -> Optional[List[Tuple[int, int]]]:
    if not isinstance(value, list) or len(value) != 2 or _numbers(value) is None:
        return None
    return [(value[0], value[1])]


def _path(value: Any) -> Optional[List[Path]]:
    if not isinstance(value, str):
        return None
    try:
        return [parse_path(value)]
    except WriteError:
        return None


def _tree(value: Any) -> Optional[List[Tree]]:
    try:
        return [read_tree(value)]
    except WriteError:
        return None


def _path_value(value: Any) -> Optional[Tuple[Path, Tree]]:
    if not isinstance(value, list) or len(value) != 2:
        return None
    path, tree = _path(value[0]), _tree(value[1])
    if path is None or tree is None:
        return None
    return path[0], tree[0]


def _values(value: Any) -> Optional[List[Tuple[Tuple[Path, Tree], ...]]]:
    # Their paths rise strictly.
    if not isinstance(value, list):
        return None
    made: List[Tuple[Path, Tree]] = []
    for item in value:
        found = _path_value(item)
        if found is None or (made and not made[-1][0] < found[0]):
            return None
        made.append(found)
    return [tuple(made)]


def _out(value: Any) -> Optional[List[Tuple[bool, Tree]]]:
    if isinstance(value, str):
        return [(True, None)] if value == "wrote" else None
    if not isinstance(value, dict) or "stale" not in value:
        return None
    held = _tree(value["stale"])
    return None if held is None else [(False, held[0])]


def _reason(value: Any) -> Optional[List[str]]:
    return [value] if isinstance(value, str) and value in _REASONS else None


def _limit(value: Any) -> Optional[List[int]]:
    return [value] if _is_whole(value) and value in (DENIED_PLAN, DENIED_LISTENS) else None


def _code(value: Any) -> Optional[List[int]]:
    return [value] if _is_whole(value) and 1 <= value <= 8 else None


def _welcome(fields: _Fields) -> Down:
    return Welcome(fields.session(), fields.number("z"), fields.take("ops", _count))


def _reply(fields: _Fields) -> Down:
    session, r, z, q = fields.answer()
    n, done = fields.number("n"), fields.number("done")
    wrote, held = fields.take("out", _out)
    return Reply(session, r, z, q, n, done, wrote, held)


def _gone(fields: _Fields) -> Down:
    session, r, z = fields.session(), fields.number("r"), fields.number("z")
    return Gone(session, r, z, fields.take("why", _reason))


def _fault(fields: _Fields) -> Down:
    session = fields.take("s", _session_or_null)
    code = fields.take("code", _code)
    return Fault(session, code, fields.take("last", _stamp) if code == CODE_OLD else None)


def _snap(fields: _Fields) -> Down:
    session, r, z, q = fields.answer()
    return Snap(session, r, z, q, fields.take("path", _path), fields.take("value", _tree))


def _push(fields: _Fields) -> Down:
    session, r, z = fields.session(), fields.number("r"), fields.number("z")
    return Push(session, r, z, fields.take("values", _values))


_READERS: Dict[str, Callable[[_Fields], Down]] = {
    "welcome": _welcome,
    "reply": _reply,
    "armed": lambda fields: Armed(*fields.answer()),
    "denied": lambda fields: Denied(*fields.answer(), fields.take("why", _limit)),
    "snap": _snap,
    "push": _push,
    "offdone": lambda fields: OffDone(*fields.answer()),
    "gone": _gone,
    "fault": _fault,
}


def read_down(text: str) -> Down:
    """The message of a text. Raises NotAMessage where it is none."""
    try:
        value = read(text)
    except NotJson as error:
        raise NotAMessage(str(error)) from None
    word = value.get("m") if isinstance(value, dict) else None
    reader = _READERS.get(word) if isinstance(word, str) else None
    if reader is None:
        raise NotAMessage("the text is none of the messages to a client")
    return reader(_Fields(value))
