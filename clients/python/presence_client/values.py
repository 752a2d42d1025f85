"""Keys, paths, values and drafts.

A path is a tuple of keys. A tree is what stands at a place: None, a bool, an int, a str, or a dict
of trees that is never empty and never holds None. A draft is a tree whose leaves may be
SERVER_TIMESTAMP or an Increment.

Python compares texts by code points, which is the byte order of their UTF-8, and so tuples of keys
stand in path order: key by key, a prefix first.
"""

from __future__ import annotations

import re
from dataclasses import dataclass
from typing import Any, Dict, Iterable, List, Mapping, Optional, Sequence, Tuple

from .errors import (
    BadKeyError,
    EmptyKeyError,
    LongKeyError,
    ManyPathsError,
    NotWholeError,
    OverlapError,
    PlaceholderError,
    RangeError,
    TooDeepError,
)
from .strict_json import NOT_WHOLE

Path = Tuple[str, ...]
Tree = Any
Draft = Any
Place = Tuple[Path, Draft]

MAX_DEPTH = 32
MOST_PLACES = 256
_LONGEST_KEY = 768
_BANNED = re.compile("[\x00-\x1f\x7f.$#\\[\\]/]")
_LEAST_INT = -(2**63)
_MOST_INT = 2**63 - 1
_MOST_UNSIGNED = 2**64 - 1


class _ServerTimestamp:
    """Stands for the server's time, in milliseconds since the Unix epoch."""

    _one: Optional["_ServerTimestamp"] = None

    def __new__(cls) -> "_ServerTimestamp":
        if cls._one is None:
            cls._one = super().__new__(cls)
        return cls._one

    def __repr__(self) -> str:
        return "SERVER_TIMESTAMP"

    def __copy__(self) -> "_ServerTimestamp":
        return self

    def __deepcopy__(self, memo: Dict[int, Any]) -> "_ServerTimestamp":
        return self

    def __reduce__(self) -> Tuple[Any, ...]:
        return (_ServerTimestamp, ())


SERVER_TIMESTAMP = _ServerTimestamp()


@dataclass(frozen=True)
class Increment:
    """Stands for the sum of this and the whole number that the place holds, and for this alone where
    it holds none."""

    by: int


_PLACEHOLDER = ".sv"
_INCREMENT = "increment"


# ---- keys and paths


def check_key(key: str) -> None:
    """Refuses what is no key, in this order: EmptyKey, LongKey, BadKey."""
    if not key:
        raise EmptyKeyError()
    if len(key) > _LONGEST_KEY or (not key.isascii() and len(key.encode()) > _LONGEST_KEY):
        raise LongKeyError()
    if _BANNED.search(key):
        raise BadKeyError()


def parse_path(text: str) -> Path:
    """The path of a text. Its leading slash may be left out, and empty pieces are skipped. All keys
    are checked in their order, and then how many there are."""
    keys = tuple(piece for piece in text.split("/") if piece)
    for key in keys:
        check_key(key)
    if len(keys) > MAX_DEPTH:
        raise TooDeepError()
    return keys


def path_text(path: Path) -> str:
    """The text of a path: a slash for the root, else each key after a slash."""
    return "/" + "/".join(path)


def path_name(path: Path) -> str:
    """The same without the leading slash: the name that an update has for a place."""
    return "/".join(path)


# ---- values from JSON


def _scalar(value: Any) -> Any:
    if value is NOT_WHOLE or isinstance(value, float):
        raise NotWholeError()
    if isinstance(value, bool) or isinstance(value, str):
        return value
    if not _LEAST_INT <= value <= _MOST_INT:
        raise RangeError() if 0 < value <= _MOST_UNSIGNED else NotWholeError()
    return value


def _increment(by: Any) -> Increment:
    is_number = by is NOT_WHOLE or (isinstance(by, (int, float)) and not isinstance(by, bool))
    if not is_number:
        raise PlaceholderError()
    return Increment(_scalar(by))


def _server_value(value: Any) -> Any:
    # What a placeholder has under its name.
    if value == "timestamp":
        return SERVER_TIMESTAMP
    if not isinstance(value, dict) or list(value) != [_INCREMENT]:
        raise PlaceholderError()
    return _increment(value[_INCREMENT])


def _leaf_of(value: Any, levels: int, is_draft: bool) -> Optional[Any]:
    # The leaf that a JSON value is, None where it is none.
    if value is None or isinstance(value, list):
        return None
    if isinstance(value, dict):
        if not is_draft or _PLACEHOLDER not in value:
            return None
        if levels == 0:
            raise TooDeepError()
        if len(value) != 1:
            raise PlaceholderError()
        return _server_value(value[_PLACEHOLDER])
    if levels == 0:
        raise TooDeepError()
    if value is SERVER_TIMESTAMP:
        return value
    if isinstance(value, Increment):
        return _increment(value.by)
    return _scalar(value)


def _members_of(value: Any) -> Iterable[Tuple[str, Any]]:
    # The members in byte order of their names, an array's items under their indexes.
    if isinstance(value, list):
        return sorted(((str(index), item) for index, item in enumerate(value)), key=_name_of)
    return sorted(value.items(), key=_name_of)


def _name_of(member: Tuple[str, Any]) -> str:
    return member[0]


def _read(value: Any, levels: int, is_draft: bool) -> Any:
    leaf = _leaf_of(value, levels, is_draft)
    if leaf is not None or value is None:
        return leaf
    below = max(levels - 1, 0)
    made = {}
    for name, member in _members_of(value):
        check_key(name)
        child = _read(member, below, is_draft)
        if child is not None:
            made[name] = child
    return made or None


def read_tree(value: Any) -> Tree:
    """The tree of a JSON value without placeholders. Refused for the first fault of a walk in byte
    order of keys: at a key EmptyKey, LongKey, BadKey, at a scalar TooDeep, NotWhole, Range."""
    return _read(value, MAX_DEPTH + 1, False)


def read_draft(value: Any) -> Draft:
    """The draft of a JSON value. At an object with the name `.sv` it is refused as TooDeep, then
    Placeholder, and else as a tree is."""
    return _read(value, MAX_DEPTH + 1, True)


# ---- values of a program


def from_python(value: Any) -> Any:
    """The JSON value of what a program hands in. Mappings become objects, lists and tuples arrays,
    floats NOT_WHOLE. Anything else but None, bool, int, str, SERVER_TIMESTAMP and Increments is a
    TypeError, and a text that has no UTF-8 a ValueError."""
    return _from_python(value, 0)


_MOST_NESTED = 200  # beyond this a value is too deep, whatever it holds


def _from_python(value: Any, level: int) -> Any:
    if value is None or value is SERVER_TIMESTAMP or isinstance(value, (bool, int, Increment)):
        return value
    if isinstance(value, float):
        return NOT_WHOLE
    if isinstance(value, str):
        return checked_text(value)
    if level > _MOST_NESTED:
        raise TooDeepError()
    if isinstance(value, Mapping):
        return {
            checked_text(name): _from_python(member, level + 1) for name, member in value.items()
        }
    if isinstance(value, (list, tuple)):
        return [_from_python(item, level + 1) for item in value]
    raise TypeError(f"{type(value).__name__} is no JSON value")


def checked_text(text: Any) -> str:
    """The text. A TypeError where it is none, and a ValueError where it has no UTF-8."""
    if not isinstance(text, str):
        raise TypeError(f"a name must be a str, not {type(text).__name__}")
    if not text.isascii():
        text.encode()
    return text


# ---- what trees tell


def depth_of(tree: Draft) -> int:
    """The keys from the top of a tree to its deepest leaf."""
    if not isinstance(tree, dict):
        return 0
    return 1 + max(depth_of(child) for child in tree.values())


def tree_json(tree: Draft) -> Any:
    """The JSON value of a tree or a draft."""
    if tree is SERVER_TIMESTAMP:
        return {_PLACEHOLDER: "timestamp"}
    if isinstance(tree, Increment):
        return {_PLACEHOLDER: {_INCREMENT: tree.by}}
    if isinstance(tree, dict):
        return {key: tree_json(child) for key, child in tree.items()}
    return tree


def copy_tree(tree: Tree) -> Tree:
    """An equal tree that shares no dict with the first."""
    if isinstance(tree, dict):
        return {key: copy_tree(child) for key, child in tree.items()}
    return tree


def value_at(tree: Tree, path: Path) -> Tree:
    """What stands at the path of a tree, None where nothing does."""
    for key in path:
        if not isinstance(tree, dict) or key not in tree:
            return None
        tree = tree[key]
    return tree


# ---- updates


def meet(one: Path, other: Path) -> bool:
    """Whether one of two paths is at or above the other."""
    shorter = min(len(one), len(other))
    return one[:shorter] == other[:shorter]


def check_place(path: Path, draft: Draft) -> None:
    """Refuses as TooDeep a draft with a leaf below 32 keys."""
    if len(path) + depth_of(draft) > MAX_DEPTH:
        raise TooDeepError()


def check_places(path: Path, places: Sequence[Place]) -> List[Place]:
    """The drafts at places below a path, in path order. Refused, in this order: ManyPaths, TooDeep,
    Overlap."""
    if len(places) > MOST_PLACES:
        raise ManyPathsError()
    for place, draft in places:
        if len(path) + len(place) + depth_of(draft) > MAX_DEPTH:
            raise TooDeepError()
    ordered = sorted(places, key=_path_of)
    for (one, _), (other, _) in zip(ordered, ordered[1:]):
        if meet(one, other):
            raise OverlapError()
    return ordered


def _path_of(place: Place) -> Path:
    return place[0]


def read_places(value: Mapping[str, Any]) -> List[Place]:
    """The drafts under the names of an object, which are paths. In byte order of the names: what a
    name is refused for as a path, and what its draft is."""
    return [(parse_path(name), read_draft(member)) for name, member in _members_of(value)]
