"""What a client does, without sockets and timers.

A Client is one start of a program, an incarnation. Its calls make messages, kept until their
answers are received; received messages make notices. Whoever holds it sends what `take_sends`
hands out, hands in what comes by `receive`, and reads `take_notices`.

The rules, and the names, are those of the repository's docs/PROTOCOL.md, "How a client stays correct".
"""

from __future__ import annotations

from collections import deque
from dataclasses import dataclass
from typing import Any, Deque, Dict, List, Optional, Sequence, Tuple, Union

from . import messages as down
from .errors import NoSuchRequestError, OfflineError, SpentError, TooDeepError, TooLongError
from .messages import (
    CODE_BAD,
    CODE_SESSION,
    DENIED_LISTENS,
    DENIED_PLAN,
    MOST_NUMBER,
    Op,
    Session,
    left_text,
    longest_bytes,
    set_op,
    transaction_op,
    up_text,
    update_op,
    write_text,
)
from .strict_json import text_of
from .values import (
    MAX_DEPTH,
    Draft,
    Path,
    Place,
    Tree,
    check_place,
    check_places,
    depth_of,
    path_text,
    tree_json,
)

OFF = "off"
OPENING = "opening"
ONLINE = "online"

MOST_TRIES = 25


# ---- notices


@dataclass(frozen=True)
class Done:
    """The write stands, as the server's entry `number`."""

    request: int
    number: int

    def __str__(self) -> str:
        return f"done {self.request} {self.number}"


@dataclass(frozen=True)
class Ask:
    """A transaction asks for the value to put in the place of this one."""

    request: int
    attempt: int
    value: Tree

    def __str__(self) -> str:
        return f"ask {self.request} {self.attempt} {text_of(tree_json(self.value))}"


@dataclass(frozen=True)
class TooManyTries:
    """Every try of the transaction was overtaken."""

    request: int

    def __str__(self) -> str:
        return f"toomany {self.request}"


@dataclass(frozen=True)
class Aborted:
    """The transaction was given up by its program."""

    request: int

    def __str__(self) -> str:
        return f"aborted {self.request}"


@dataclass(frozen=True)
class Armed:
    """What was left for the session's end, or taken back, is in force."""

    request: int

    def __str__(self) -> str:
        return f"armed {self.request}"


@dataclass(frozen=True)
class ActionLost:
    """The session ended before the action was confirmed."""

    request: int

    def __str__(self) -> str:
        return f"lost {self.request}"


@dataclass(frozen=True)
class Value:
    """The path shows this value, at the server's number."""

    path: Path
    number: int
    value: Tree

    def __str__(self) -> str:
        value = text_of(tree_json(self.value))
        return f"value {path_text(self.path)} {self.number} {value}"


@dataclass(frozen=True)
class Connected:
    """Whether a session is open."""

    is_open: bool

    def __str__(self) -> str:
        return "connected true" if self.is_open else "connected false"


@dataclass(frozen=True)
class Denied:
    """The request met a limit: 1 of what is left for the end, 2 of listened paths."""

    request: int
    why: int

    def __str__(self) -> str:
        return f"denied {self.request} {self.why}"


@dataclass(frozen=True)
class Faulted:
    """The server refused a message, or an answer fitted nothing (1)."""

    code: int
    last: Optional[Tuple[int, int]] = None

    def __str__(self) -> str:
        return f"faulted {self.code}"


Notice = Union[
    Done, Ask, TooManyTries, Aborted, Armed, ActionLost, Value, Connected, Denied, Faulted
]


# ---- what waits for an answer


@dataclass(frozen=True)
class _Write:
    request: int
    op: Op


@dataclass(frozen=True)
class _Try:
    request: int
    op: Op
    attempt: int


@dataclass(frozen=True)
class _Left:
    request: int
    op: Op


@dataclass(frozen=True)
class _Cancel:
    request: int
    path: Path


@dataclass(frozen=True)
class _On:
    request: int
    path: Path


@dataclass(frozen=True)
class _Off:
    path: Path


_Queued = Union[_Write, _Try, _Left, _Cancel, _On, _Off]


def _message(queued: _Queued, session: Session, q: int, n: int) -> str:
    if isinstance(queued, (_Write, _Try)):
        return write_text(session, q, n, queued.op)
    if isinstance(queued, _Left):
        return left_text(session, q, queued.op)
    word = {_Cancel: "cancel", _On: "on", _Off: "off"}[type(queued)]
    return up_text(word, session, q=q, path=path_text(queued.path))


# ---- what is shown

_NOTHING = 0  # no value came yet
_KEPT = 1  # a value of an earlier session
_LIVE = 2  # a value of this session


class _Watch:
    __slots__ = ("request", "state", "number", "value")

    def __init__(self, request: int) -> None:
        self.request = request
        self.state = _NOTHING
        self.number = 0  # of a kept value
        self.value: Tree = None

    def tell(self, value: Tree) -> None:
        self.state = _LIVE
        self.value = value

    def keep(self, number: int) -> None:
        if self.state == _LIVE:
            self.state = _KEPT
            self.number = number


@dataclass(frozen=True)
class _Asking:
    path: Path
    attempt: int
    value: Tree


class Client:
    """One incarnation of a client, in the state Off. Operations whose message may have more bytes
    than `longest` are refused as TooLong, where that is given: a server takes no longer ones."""

    def __init__(self, client: str, incarnation: int, longest: Optional[int] = None) -> None:
        self._longest = longest
        self._session = Session(client, incarnation, 1)
        self._attempts = 0
        self._phase = OFF
        # How many writes the server had carried out for the client at the first Welcome.
        self._base: Optional[int] = None
        # How many writes were made, how many of them went out, how many were answered.
        self._made = self._sent = self._answered = 0
        # How many messages of this session were answered, how many of its stream were taken, and
        # the server's number in the last of them.
        self._heard = self._taken = self._seen = 0
        self._requests = 0
        # The messages of the session without an answer, and while none is open the writes.
        self._queue: Deque[_Queued] = deque()
        self._watches: Dict[Path, _Watch] = {}
        self._asks: Dict[int, _Asking] = {}
        self._sends: List[str] = []
        self._notices: List[Notice] = []

    # ---- readers

    @property
    def phase(self) -> str:
        """OFF, OPENING or ONLINE."""
        return self._phase

    @property
    def connected(self) -> bool:
        """Whether a session is open."""
        return self._phase == ONLINE

    @property
    def session(self) -> Optional[Session]:
        """The session that is open or being opened."""
        return None if self._phase == OFF else self._session

    @property
    def incarnation(self) -> int:
        """Which start of the client's program this is."""
        return self._session.incarnation

    @property
    def was_welcomed(self) -> bool:
        """Whether a session of this incarnation was ever open."""
        return self._base is not None

    @property
    def unanswered(self) -> int:
        """How many messages of the session wait for their answers, a Hello among them."""
        if self._phase == ONLINE:
            return len(self._queue)
        return 1 if self._phase == OPENING else 0

    def view(self, path: Path) -> Optional[Tuple[int, Tree]]:
        """The server's number and the value that the path shows. None before the first value, and
        of a path that isn't listened to."""
        watch = self._watches.get(path)
        if watch is None or watch.state == _NOTHING:
            return None
        return (self._seen if watch.state == _LIVE else watch.number), watch.value

    def is_live(self, path: Path) -> bool:
        """Whether the session that is open has told the value that the path shows."""
        watch = self._watches.get(path)
        return watch is not None and watch.state == _LIVE

    def views(self) -> List[Tuple[Path, int, Tree]]:
        """Each path that shows a value, in path order."""
        shown = []
        for path in sorted(self._watches):
            view = self.view(path)
            if view is not None:
                shown.append((path, view[0], view[1]))
        return shown

    def take_sends(self) -> List[str]:
        """The texts of the messages that are to be sent, in this order. Each is handed out once."""
        sends, self._sends = self._sends, []
        return sends

    def take_notices(self) -> List[Notice]:
        """What happened, in this order. Each notice is handed out once."""
        notices, self._notices = self._notices, []
        return notices

    # ---- numbers

    def _has_no_request(self) -> bool:
        return self._requests >= MOST_NUMBER

    def _has_no_write(self) -> bool:
        return (self._base or 0) + self._made >= MOST_NUMBER

    def _has_no_message(self) -> bool:
        return self._heard + len(self._queue) >= MOST_NUMBER

    def _check_write(self) -> None:
        if self._has_no_request() or self._has_no_write() or self._has_no_message():
            raise SpentError()

    def _check_action(self) -> None:
        if self._phase != ONLINE:
            raise OfflineError()
        if self._has_no_request() or self._has_no_message():
            raise SpentError()

    # ---- steps that calls share

    def _check_length(self, op: Op) -> None:
        if self._longest is not None and longest_bytes(self._session, op) > self._longest:
            raise TooLongError()

    def _next_request(self) -> int:
        self._requests += 1
        return self._requests

    def _enqueue(self, queued: _Queued) -> None:
        # One message more. It goes out at once where a session is open.
        if self._phase == ONLINE:
            q = self._heard + len(self._queue) + 1
            n = (self._base or 0) + self._made + 1
            self._sends.append(_message(queued, self._session, q, n))
        self._queue.append(queued)

    def _make_write(self, queued: _Queued) -> None:
        self._enqueue(queued)
        self._made += 1
        if self._phase == ONLINE:
            self._sent = self._made

    def _outstanding(self) -> List[str]:
        # The messages of the session without an answer.
        texts = []
        n = (self._base or 0) + self._answered + 1
        for q, queued in enumerate(self._queue, self._heard + 1):
            texts.append(_message(queued, self._session, q, n))
            if isinstance(queued, (_Write, _Try)):
                n += 1
        return texts

    def _end_session(self, fault: Optional[int]) -> None:
        # The writes without an answer stay, and what is shown.
        self._notices.append(Connected(False))
        for queued in self._queue:
            if isinstance(queued, (_Left, _Cancel)):
                self._notices.append(ActionLost(queued.request))
        if fault is not None:
            self._notices.append(Faulted(fault))
        writes = (queued for queued in self._queue if isinstance(queued, (_Write, _Try)))
        self._queue = deque(writes)
        for watch in self._watches.values():
            watch.keep(self._seen)
        self._phase = OFF
        self._heard = self._taken = 0

    # ---- writes

    def _write(self, op: Op) -> int:
        self._check_length(op)
        request = self._next_request()
        self._make_write(_Write(request, op))
        return request

    def set(self, path: Path, draft: Draft) -> int:
        """Puts the draft in the place of all that stands at the path. Refused, in this order:
        Spent, TooDeep."""
        self._check_write()
        check_place(path, draft)
        return self._write(set_op(path, draft))

    def update(self, path: Path, places: Sequence[Place]) -> int:
        """Puts the drafts at their places below the path, all of them or none. Refused, in this
        order: Spent, ManyPaths, TooDeep, Overlap."""
        self._check_write()
        return self._write(update_op(path, check_places(path, places)))

    def remove(self, path: Path) -> int:
        """Removes what stands at the path. Refused: Spent."""
        self._check_write()
        return self._write(set_op(path, None))

    # ---- transactions

    def transact(self, path: Path) -> int:
        """Asks by the notice Ask what to put in the place of the value at the path. Refused:
        Spent."""
        if self._has_no_request():
            raise SpentError()
        view = self.view(path)
        request = self._next_request()
        self._ask(request, _Asking(path, 1, None if view is None else view[1]))
        return request

    def _ask(self, request: int, asking: _Asking) -> None:
        self._asks[request] = asking
        self._notices.append(Ask(request, asking.attempt, asking.value))

    def answer(self, request: int, draft: Draft) -> None:
        """Answers what a transaction asked by a draft. Refused, in this order: NoSuchRequest,
        Spent, TooDeep."""
        asking = self._asked(request)
        if self._has_no_write() or self._has_no_message():
            raise SpentError()
        if max(depth_of(asking.value), depth_of(draft)) + len(asking.path) > MAX_DEPTH:
            raise TooDeepError()
        op = transaction_op(asking.path, asking.value, draft)
        self._check_length(op)
        del self._asks[request]
        self._make_write(_Try(request, op, asking.attempt))

    def abort(self, request: int) -> None:
        """Gives a transaction that asks up. Refused: NoSuchRequest."""
        self._asked(request)
        del self._asks[request]
        self._notices.append(Aborted(request))

    def _asked(self, request: int) -> _Asking:
        asking = self._asks.get(request)
        if asking is None:
            raise NoSuchRequestError()
        return asking

    def asked(self, request: int) -> Optional[Tuple[Path, Tree]]:
        """The path and the value of a transaction that asks."""
        asking = self._asks.get(request)
        return None if asking is None else (asking.path, asking.value)

    # ---- what is left for the session's end

    def _leave(self, op: Op) -> int:
        self._check_length(op)
        request = self._next_request()
        self._enqueue(_Left(request, op))
        return request

    def on_disconnect_set(self, path: Path, draft: Draft) -> int:
        """Leaves a set for the session's end. Refused, in this order: Offline, Spent, TooDeep."""
        self._check_action()
        check_place(path, draft)
        return self._leave(set_op(path, draft))

    def on_disconnect_update(self, path: Path, places: Sequence[Place]) -> int:
        """Leaves an update for the session's end. Refused, in this order: Offline, Spent,
        ManyPaths, TooDeep, Overlap."""
        self._check_action()
        return self._leave(update_op(path, check_places(path, places)))

    def on_disconnect_remove(self, path: Path) -> int:
        """Leaves a remove for the session's end. Refused, in this order: Offline, Spent."""
        self._check_action()
        return self._leave(set_op(path, None))

    def on_disconnect_cancel(self, path: Path) -> int:
        """Takes back what was left at the path and below it. Refused, in this order: Offline,
        Spent."""
        self._check_action()
        request = self._next_request()
        self._enqueue(_Cancel(request, path))
        return request

    # ---- listens

    def listen(self, path: Path) -> int:
        """Listens to the path: the notice Value tells each value. A path that is listened to
        already is answered with a new request alone. Refused: Spent."""
        if self._has_no_request():
            raise SpentError()
        if path in self._watches:
            return self._next_request()
        if self._has_no_message():
            raise SpentError()
        request = self._next_request()
        if self._phase == ONLINE:
            self._enqueue(_On(request, path))
        self._watches[path] = _Watch(request)
        return request

    def unlisten(self, path: Path) -> None:
        """Listens no more to the path, and shows nothing of it. Refused: Spent."""
        if path not in self._watches:
            return
        if self._phase == ONLINE:
            if self._has_no_message():
                raise SpentError()
            self._enqueue(_Off(path))
        del self._watches[path]

    # ---- the connection

    def go_online(self) -> None:
        """Sends a Hello with the next attempt, where no session is open or being opened. Refused:
        Spent."""
        if self._phase != OFF:
            return
        if self._attempts >= MOST_NUMBER:
            raise SpentError()
        self._attempts += 1
        self._session = self._session._replace(attempt=self._attempts)
        self._phase = OPENING
        self._sends.append(up_text("hello", self._session))

    def go_offline(self) -> None:
        """Sends a Bye, where a session is open, and leaves it. Refused: Spent."""
        if self._phase != ONLINE:
            self._phase = OFF
            return
        if self._has_no_message():
            raise SpentError()
        q = self._heard + len(self._queue) + 1
        self._sends.append(up_text("bye", self._session, q=q))
        self._end_session(None)

    def lost(self) -> None:
        """The connection was lost."""
        if self._phase == ONLINE:
            self._end_session(None)
        else:
            self._phase = OFF

    def beat(self) -> None:
        """Sends a Beat, where a session is open."""
        if self._phase == ONLINE:
            self._sends.append(up_text("beat", self._session))

    def resend(self) -> None:
        """Sends all messages of the session without an answer again, or the Hello."""
        if self._phase == ONLINE:
            self._sends.extend(self._outstanding())
        elif self._phase == OPENING:
            self._sends.append(up_text("hello", self._session))

    def renew(self, incarnation: int) -> None:
        """Goes on as if the program had begun with this incarnation. To be called while the client
        is Off and no session of the old one was ever open, so that none of its writes went out."""
        if self._phase != OFF or self._base is not None:
            raise ValueError("a session of this incarnation was open")
        self._session = self._session._replace(incarnation=incarnation, attempt=1)
        self._attempts = 0

    # ---- received messages

    def accepts(self, message: down.Down) -> bool:
        """Whether the message is for this client now: the Welcome that it waits for, the next one
        of its session's stream, or a Fault. Any other is passed over."""
        if isinstance(message, down.Welcome):
            return self._phase == OPENING and message.session == self._session
        if isinstance(message, down.Fault):
            return True
        return (
            self._phase == ONLINE
            and message.session == self._session
            and message.r == self._taken + 1
        )

    def misses(self, message: down.Down) -> bool:
        """Whether a message of the session's stream before this one didn't come. Then none is
        taken any more, and the connection is to be given up."""
        if isinstance(message, (down.Welcome, down.Fault)):
            return False
        is_own = self._phase == ONLINE and message.session == self._session
        return is_own and message.r > self._taken + 1

    def receive(self, message: down.Down) -> None:
        """Receives a message. One that isn't accepted is passed over, so that messages may come
        twice or late."""
        if not self.accepts(message):
            return
        if isinstance(message, down.Welcome):
            self._receive_welcome(message)
        elif isinstance(message, down.Fault):
            self._receive_fault(message)
        else:
            self._taken += 1
            self._seen = message.z
            self._judge(message)

    def _judge(self, message: Any) -> None:
        if isinstance(message, down.Push):
            self._receive_push(message)
        elif isinstance(message, down.Gone):
            self._end_session(None)
        else:
            self._receive_answer(message)

    def _receive_answer(self, message: Any) -> None:
        # An answer fits the oldest message without one, or it ends the session.
        oldest = self._queue[0] if self._queue else None
        if oldest is None or message.q != self._heard + 1 or not self._fits(oldest, message):
            self._end_session(CODE_BAD)
            return
        self._heard += 1
        self._queue.popleft()
        if isinstance(message, down.Reply):
            self._receive_reply(oldest, message)
        elif isinstance(message, down.Armed):
            self._notices.append(Armed(oldest.request))
        elif isinstance(message, down.Denied):
            self._receive_denied(oldest, message)
        elif isinstance(message, down.Snap):
            self._receive_snap(message)

    def _fits(self, oldest: Any, message: Any) -> bool:
        if isinstance(message, down.Reply):
            if message.n != (self._base or 0) + self._answered + 1:
                return False
            return isinstance(oldest, _Try) or (isinstance(oldest, _Write) and message.wrote)
        if isinstance(message, down.Armed):
            return isinstance(oldest, (_Left, _Cancel))
        if isinstance(message, down.Denied):
            is_plan = message.why == DENIED_PLAN
            return isinstance(oldest, (_Left, _Cancel) if is_plan else _On)
        if isinstance(message, down.Snap):
            return isinstance(oldest, _On) and oldest.path == message.path
        return isinstance(oldest, _Off)

    def _receive_reply(self, oldest: Any, message: down.Reply) -> None:
        self._answered += 1
        if message.wrote:
            self._notices.append(Done(oldest.request, message.done))
        elif oldest.attempt < MOST_TRIES:
            asking = _Asking(oldest.op.path, oldest.attempt + 1, message.held)
            self._ask(oldest.request, asking)
        else:
            self._notices.append(TooManyTries(oldest.request))

    def _is_last_listen(self, path: Path) -> bool:
        return not any(isinstance(queued, _On) and queued.path == path for queued in self._queue)

    def _receive_denied(self, oldest: Any, message: down.Denied) -> None:
        self._notices.append(Denied(oldest.request, message.why))
        if message.why == DENIED_LISTENS and self._is_last_listen(oldest.path):
            self._watches.pop(oldest.path, None)

    def _receive_snap(self, message: down.Snap) -> None:
        watch = self._watches.get(message.path)
        if watch is not None and self._is_last_listen(message.path):
            watch.tell(message.value)
            self._notices.append(Value(message.path, message.z, message.value))

    def _receive_push(self, message: down.Push) -> None:
        for path, value in message.values:
            watch = self._watches.get(path)
            if watch is not None and watch.state == _LIVE:
                watch.tell(value)
                self._notices.append(Value(path, message.z, value))

    def _receive_welcome(self, message: down.Welcome) -> None:
        base = message.ops if self._base is None else self._base
        is_fit = (
            base + self._answered <= message.ops <= base + self._sent
            and base + self._made <= MOST_NUMBER
            and len(self._watches) + len(self._queue) <= MOST_NUMBER
        )
        if not is_fit:
            self._notices.append(Faulted(CODE_BAD))
            self._phase = OFF
            return
        self._phase = ONLINE
        self._base = base
        self._sent = self._made
        self._heard = self._taken = 0
        listens = (_On(self._watches[path].request, path) for path in sorted(self._watches))
        self._queue.extendleft(reversed(list(listens)))
        self._notices.append(Connected(True))
        self._sends.extend(self._outstanding())

    def _receive_fault(self, message: down.Fault) -> None:
        is_own = message.session == self._session
        if message.session is not None and (not is_own or self._phase == OFF):
            return
        if is_own and self._phase == ONLINE and message.code == CODE_SESSION:
            self._end_session(CODE_SESSION)
            return
        self._notices.append(Faulted(message.code, message.last))
        if is_own and self._phase == OPENING:
            self._phase = OFF
