"""What the library refuses, and what the server refuses, as classes.

Each error has the number and the name that the protocol gives it, as `number` and `name`. Refused
calls, refused writes, denials and the server's faults are numbered apart, so a number tells
something only together with its class.
"""

from __future__ import annotations

from typing import ClassVar, Optional, Tuple, Type


class PresenceError(Exception):
    """The base of all errors of this library."""

    number: ClassVar[int] = 0
    name: ClassVar[str] = ""
    about: ClassVar[str] = "something went wrong"

    def __init__(self, about: Optional[str] = None) -> None:
        super().__init__(about if about is not None else self.about)


# ---- refused calls


class CallError(PresenceError):
    """A call that is refused. Nothing was sent, and nothing is changed."""


class OfflineError(CallError):
    """Something is to be left for the session's end, or taken back, while no session is open."""

    number = 2
    name = "Offline"
    about = "not online"


class NoSuchRequestError(CallError):
    """No transaction with this request waits for an answer."""

    number = 3
    name = "NoSuchRequest"
    about = "no such request"


class SpentError(CallError):
    """A number would pass 2^53 - 1."""

    number = 4
    name = "Spent"
    about = "no numbers are left"


class WriteError(CallError):
    """A key, a path, a value or an update is refused. `write_number` and `write_name` tell why."""

    number = 5
    name = "Write"
    write_number: ClassVar[int] = 0
    write_name: ClassVar[str] = ""


class EmptyKeyError(WriteError):
    """A key without bytes."""

    write_number = 2
    write_name = "EmptyKey"
    about = "a key is empty"


class LongKeyError(WriteError):
    """A key of more than 768 bytes of UTF-8."""

    write_number = 3
    write_name = "LongKey"
    about = "a key is longer than 768 bytes"


class BadKeyError(WriteError):
    """A key with a control character or one of `.` `$` `#` `[` `]` `/`."""

    write_number = 4
    write_name = "BadKey"
    about = "a key has a character that no key may have"


class TooDeepError(WriteError):
    """More than 32 keys from the root to a scalar, or in a path."""

    write_number = 5
    write_name = "TooDeep"
    about = "more than 32 keys lead from the root to a place"


class NotWholeError(WriteError):
    """A fraction, an exponent, or a number past 64 bits."""

    write_number = 6
    write_name = "NotWhole"
    about = "a number is not a whole number of 64 bits"


class RangeError(WriteError):
    """A whole number above 2^63 - 1."""

    write_number = 7
    write_name = "Range"
    about = "a number is above 2^63 - 1"


class PlaceholderError(WriteError):
    """An object with the name `.sv` that is no placeholder."""

    write_number = 8
    write_name = "Placeholder"
    about = "an object with the name .sv is no placeholder"


class OverlapError(WriteError):
    """An update in which one place is at or above another."""

    write_number = 9
    write_name = "Overlap"
    about = "one place of an update is at or above another"


class ManyPathsError(WriteError):
    """An update of more than 256 places."""

    write_number = 10
    write_name = "ManyPaths"
    about = "an update names more than 256 places"


class NotJsonError(WriteError):
    """A text that is no JSON, or nests more than 127 arrays and objects."""

    write_number = 12
    write_name = "NotJson"
    about = "a text is no JSON"


class TooLongError(WriteError):
    """A message that would have more than 1,048,576 bytes, which no server takes."""

    write_number = 14
    write_name = "TooLong"
    about = "the message would be longer than 1,048,576 bytes"


# ---- denials


class DeniedError(PresenceError):
    """The server met a limit, and what was asked for wasn't done."""


class PlanFullError(DeniedError):
    """A session has left as much for its end as it may: 256 rows."""

    number = 1
    name = "plan"
    about = "the session has left 256 writes for its end, and may leave no more"


class ListensFullError(DeniedError):
    """A session listens to as many paths as it may: 256."""

    number = 2
    name = "listens"
    about = "the session listens to 256 paths, and may listen to no more"


# ---- what ends without an answer


class ActionLostError(PresenceError):
    """The session ended before the server said that the action stands. It may have been taken, and
    then it was carried out when the session ended."""

    about = "the session ended before its action was confirmed"


class TooManyTriesError(PresenceError):
    """Other clients overtook each of a transaction's 25 tries. Nothing was written."""

    about = "a transaction was overtaken 25 times"


class SupersededError(PresenceError):
    """Another connection of this client id has taken over. Whether a write without an answer was
    carried out isn't known."""

    about = "another connection of this client id has taken over"


class ClosedError(PresenceError):
    """The database was closed. Whether a write without an answer was carried out isn't known."""

    about = "the database is closed"


# ---- faults of the server


class ServerFault(PresenceError):
    """The server refused a message, which changed nothing."""


class BadFault(ServerFault):
    """A text is no message, or not one that may come there. Also what the client tells itself of an
    answer that fits nothing."""

    number = 1
    name = "bad"
    about = "a message was none that may come there"


class OldFault(ServerFault):
    """A session isn't newer than the client's last one, whose stamp is `last`: its incarnation and
    its attempt."""

    number = 2
    name = "old"
    about = "a later session of this client id was opened before"

    def __init__(self, about: Optional[str] = None, last: Optional[Tuple[int, int]] = None) -> None:
        super().__init__(about)
        self.last = last


class SessionFault(ServerFault):
    """A message is of a session that isn't open."""

    number = 3
    name = "session"
    about = "the session is not open"


class OrderFault(ServerFault):
    """A message leaves out numbers."""

    number = 4
    name = "order"
    about = "a message leaves out numbers"


class FullFault(ServerFault):
    """As many sessions are open as may be."""

    number = 5
    name = "full"
    about = "the server has as many sessions as it may"


class BusyFault(ServerFault):
    """The server had no memory, or its store refused the write. The library sends it again."""

    number = 6
    name = "busy"
    about = "the server was busy"


class SpentFault(ServerFault):
    """The server has no numbers left."""

    number = 7
    name = "spent"
    about = "the server has no numbers left"


class DownFault(ServerFault):
    """The server has to be started again."""

    number = 8
    name = "down"
    about = "the server has to be started again"


_FAULTS: Tuple[Type[ServerFault], ...] = (
    BadFault,
    OldFault,
    SessionFault,
    OrderFault,
    FullFault,
    BusyFault,
    SpentFault,
    DownFault,
)


def server_fault(code: int, last: Optional[Tuple[int, int]] = None) -> ServerFault:
    """The error of a fault's code, 1 to 8."""
    kind = _FAULTS[code - 1]
    return OldFault(last=last) if kind is OldFault else kind()
