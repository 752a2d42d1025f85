"""Places of a database, and what a program reads and writes there."""

from __future__ import annotations

import asyncio
from typing import TYPE_CHECKING, Any, Awaitable, Callable, List, Mapping, Optional, Union

from .streams import Stream
from .values import (
    Draft,
    Path,
    Place,
    Tree,
    checked_text,
    copy_tree,
    from_python,
    parse_path,
    path_text,
    read_draft,
    read_places,
    value_at,
)

if TYPE_CHECKING:
    from .database import Database


class _Abort:
    """What a transaction's function returns to give the transaction up."""

    def __repr__(self) -> str:
        return "ABORT"


ABORT = _Abort()

Json = Union[None, bool, int, str, List[Any], Mapping[str, Any]]
Update = Callable[[Any], Union[Any, Awaitable[Any]]]
Unsubscribe = Callable[[], None]


class Snapshot:
    """What a path held after the server's entry `number`."""

    __slots__ = ("_path", "_number", "_tree", "_value")

    def __init__(self, path: Path, number: int, tree: Tree) -> None:
        self._path = path
        self._number = number
        self._tree = tree
        self._value: Any = None

    @property
    def path(self) -> str:
        """The path's text."""
        return path_text(self._path)

    @property
    def key(self) -> Optional[str]:
        """The last key of the path, None for the root."""
        return self._path[-1] if self._path else None

    @property
    def number(self) -> int:
        """The server's number: how many entries its log had. Two snapshots of one path with the
        same number are equal, whichever clients they come from."""
        return self._number

    @property
    def exists(self) -> bool:
        """Whether anything stands at the path."""
        return self._tree is not None

    @property
    def value(self) -> Any:
        """The value: None, a bool, an int, a str, or a dict. It is the caller's own."""
        if self._value is None:
            self._value = copy_tree(self._tree)
        return self._value

    def child(self, path: str) -> "Snapshot":
        """The snapshot of a path below this one."""
        below = parse_path(path)
        return Snapshot(self._path + below, self._number, value_at(self._tree, below))

    def __eq__(self, other: object) -> bool:
        if not isinstance(other, Snapshot):
            return NotImplemented
        return (self._path, self._number) == (other._path, other._number) and (
            self._tree == other._tree
        )

    def __repr__(self) -> str:
        return f"Snapshot({self.path!r}, {self._number}, {self._tree!r})"


class TransactionResult:
    """How a transaction ended."""

    __slots__ = ("committed", "number", "value")

    def __init__(self, committed: bool, number: Optional[int], value: Any) -> None:
        #: Whether the value was written.
        self.committed = committed
        #: The server's entry that wrote it, None where nothing was written.
        self.number = number
        #: What was written, placeholders as they were given; or the value that was given up.
        self.value = value

    def __repr__(self) -> str:
        return f"TransactionResult({self.committed}, {self.number}, {self.value!r})"


def draft_of(value: Any) -> Draft:
    """The draft of what a program hands in."""
    return read_draft(from_python(value))


def places_of(values: Mapping[str, Any]) -> List[Place]:
    """The drafts of an update's values."""
    if not isinstance(values, Mapping):
        raise TypeError("an update takes a mapping from paths to values")
    return read_places(from_python(values))


def path_of(text: str) -> Path:
    """The path of a program's text."""
    return parse_path(checked_text(text))


class Reference:
    """One place of a database. Made by `Database.ref`."""

    __slots__ = ("_db", "_path")

    def __init__(self, db: "Database", path: Path) -> None:
        self._db = db
        self._path = path

    @property
    def path(self) -> str:
        """The path's text."""
        return path_text(self._path)

    @property
    def key(self) -> Optional[str]:
        """The last key of the path, None for the root."""
        return self._path[-1] if self._path else None

    @property
    def parent(self) -> Optional["Reference"]:
        """The place above, None for the root."""
        return Reference(self._db, self._path[:-1]) if self._path else None

    def child(self, path: str) -> "Reference":
        """A place below this one."""
        return Reference(self._db, parse_path(self.path + "/" + checked_text(path)))

    # ---- writes

    def set(self, value: Json) -> "asyncio.Future[int]":
        """Puts the value in the place of all that stands here; None removes it. The write is in the
        queue at once, and the awaitable gives the server's number once it stands."""
        draft = draft_of(value)
        return self._db._request(lambda core: core.set(self._path, draft))

    def update(self, values: Mapping[str, Json]) -> "asyncio.Future[int]":
        """Puts the values at their paths below this place, all of them or none."""
        places = places_of(values)
        return self._db._request(lambda core: core.update(self._path, places))

    def remove(self) -> "asyncio.Future[int]":
        """Removes what stands here."""
        return self._db._request(lambda core: core.remove(self._path))

    def transaction(self, update: Update) -> "asyncio.Future[TransactionResult]":
        """Puts what `update` makes of the value here, and tries again with the newer value where
        another write came first, up to 25 times. `update` is a function or a coroutine function. It
        is first called with the value that is shown of this very path, and else with None, so it
        must stand a None where the place holds something. It returns the new value, or ABORT."""
        return self._db._transact(self._path, update)

    def on_disconnect(self) -> "OnDisconnect":
        """What the server does here once this session has ended, however it ends."""
        return OnDisconnect(self._db, self._path)

    # ---- reads

    async def get(self) -> Snapshot:
        """The value here, as the server tells it. While there is no connection it waits for one."""
        return await self._db._get(self._path)

    def on_value(
        self,
        callback: Callable[[Snapshot], Any],
        on_error: Optional[Callable[[Exception], Any]] = None,
    ) -> Unsubscribe:
        """Calls back with the value here, and again after each write that touches it. What is
        returned stops that. `on_error` is called where the server denies the listen."""
        return self._db._subscribe(self._path, callback, on_error)

    def values(self) -> Stream[Snapshot]:
        """The value here, and again after each write that touches it, for `async for`. No value is
        left out, so whoever reads slowly reads old ones."""
        return self._db._values(self._path)

    def __eq__(self, other: object) -> bool:
        if not isinstance(other, Reference):
            return NotImplemented
        return self._db is other._db and self._path == other._path

    def __hash__(self) -> int:
        return hash((id(self._db), self._path))

    def __str__(self) -> str:
        return self.path

    def __repr__(self) -> str:
        return f"Reference({self.path!r})"


class OnDisconnect:
    """What the server does at a place once this session has ended. Each call is refused as Offline
    while there is no connection. Its awaitable settles once the server has the action, and raises
    ActionLostError where the session ended before: then the action may have been carried out. A new
    session has no actions, so they are to be left again after each reconnect."""

    __slots__ = ("_db", "_path")

    def __init__(self, db: "Database", path: Path) -> None:
        self._db = db
        self._path = path

    def set(self, value: Json) -> "asyncio.Future[None]":
        """Puts the value here. SERVER_TIMESTAMP is the moment of the end."""
        draft = draft_of(value)
        return self._db._request(lambda core: core.on_disconnect_set(self._path, draft))

    def update(self, values: Mapping[str, Json]) -> "asyncio.Future[None]":
        """Puts the values at their paths below this place."""
        places = places_of(values)
        return self._db._request(lambda core: core.on_disconnect_update(self._path, places))

    def remove(self) -> "asyncio.Future[None]":
        """Removes what stands here then."""
        return self._db._request(lambda core: core.on_disconnect_remove(self._path))

    def cancel(self) -> "asyncio.Future[None]":
        """Takes back what was left here and below. Where something was left above, this place keeps
        what it holds when the session ends."""
        return self._db._request(lambda core: core.on_disconnect_cancel(self._path))


class ConnectedReference:
    """`.info/connected`: whether a session is open. Its snapshots have the number 0."""

    path = "/.info/connected"
    key = "connected"

    __slots__ = ("_db",)

    def __init__(self, db: "Database") -> None:
        self._db = db

    async def get(self) -> Snapshot:
        """Whether a session is open."""
        return connected_snapshot(self._db.is_connected)

    def on_value(self, callback: Callable[[Snapshot], Any]) -> Unsubscribe:
        """Calls back with the truth now, and with each new one."""
        return self._db._on_connected(lambda is_open: callback(connected_snapshot(is_open)))

    def values(self) -> Stream[Snapshot]:
        """The truth now, and each new one, for `async for`."""
        return self._db._connected_stream(connected_snapshot)


def connected_snapshot(is_open: bool) -> Snapshot:
    """The snapshot of `.info/connected`."""
    return Snapshot((".info", "connected"), 0, is_open)
