"""A database of a presence server, for asyncio: the core of a client, and its connection."""

from __future__ import annotations

import asyncio
import inspect
import logging
import os
import random
from typing import Any, Callable, Dict, List, Literal, Optional, Tuple, TypeVar, Union, overload

from . import core, messages
from .errors import (
    ActionLostError,
    CallError,
    ClosedError,
    ListensFullError,
    OldFault,
    PlanFullError,
    PresenceError,
    SupersededError,
    TooManyTriesError,
    server_fault,
)
from .incarnation import file_of
from .link import Link, LinkError, check_package
from .listeners import Listener, Listeners
from .messages import CODE_BUSY, CODE_OLD, CODE_ORDER, DENIED_LISTENS, LONGEST_UP, MOST_NUMBER
from .reference import (
    ABORT,
    ConnectedReference,
    Reference,
    Snapshot,
    TransactionResult,
    Unsubscribe,
    Update,
    draft_of,
    path_of,
)
from .streams import Feed, Stream
from .values import Path, copy_tree

log = logging.getLogger("presence_client")

T = TypeVar("T")

_MOST_CLOSING = 5.0
_FIRST_RESEND = 0.1
_MOST_RESEND = 5.0


class _Transaction:
    # A transaction whose end is awaited.
    def __init__(self, update: Update) -> None:
        self.update = update
        self.value: Any = None
        self.error: Optional[BaseException] = None


def connect(
    url: str,
    client: str,
    *,
    storage: Optional[Union[str, "os.PathLike[str]"]] = None,
    incarnation: Optional[int] = None,
    beat: float = 20.0,
    first_delay: float = 0.25,
    most_delay: float = 30.0,
    answer_timeout: float = 30.0,
    open_timeout: float = 10.0,
) -> "Database":
    """The database of the server at the URL, for the client id, to be used by `async with`.

    `storage` is the file that keeps which start of the client this is. A program that has numbers
    of its own hands one in as `incarnation`, a greater one at each start, saved before. Where
    neither is given the number is kept below $XDG_STATE_HOME or ~/.local/state.

    Times are in seconds: between two Beats (a server ends a session that is silent for 60), before
    the first attempt to connect again and the most before another one, without an answer until a
    connection is given up, and for the opening of a connection.
    """
    return Database(
        url,
        client,
        storage=storage,
        incarnation=incarnation,
        beat=beat,
        first_delay=first_delay,
        most_delay=most_delay,
        answer_timeout=answer_timeout,
        open_timeout=open_timeout,
    )


class Database:
    """A client of a presence server. It keeps one connection, opens it again where it is lost, and
    sends what is unanswered again. Made by `connect`, used in one event loop."""

    def __init__(
        self,
        url: str,
        client: str,
        *,
        storage: Optional[Union[str, "os.PathLike[str]"]],
        incarnation: Optional[int],
        beat: float,
        first_delay: float,
        most_delay: float,
        answer_timeout: float,
        open_timeout: float,
    ) -> None:
        if not url.startswith(("ws://", "wss://")):
            raise ValueError("the URL of a server begins with ws:// or wss://")
        if not messages.is_client_id(client):
            raise ValueError("a client id is 1 to 128 of A-Z a-z 0-9 _ -")
        if incarnation is not None and not 1 <= incarnation <= MOST_NUMBER:
            raise ValueError("an incarnation is 1 to 2^53 - 1")
        self._url = url
        self._client = client
        self._file = file_of(url, client, storage)
        self._given = incarnation
        self._beat = beat
        self._first_delay = first_delay
        self._most_delay = most_delay
        self._answer_timeout = answer_timeout
        self._open_timeout = open_timeout
        self._core = self._core_of(1)
        self._task: Optional["asyncio.Task[None]"] = None
        self._link: Optional[Link] = None
        self._is_wanted = False
        self._is_closed = False
        # What the task that keeps the connection waits for while it has none.
        self._nudge = asyncio.Event()
        self._is_unlinked = asyncio.Event()
        self._is_unlinked.set()
        self._stopped: Optional[PresenceError] = ClosedError("the database was not opened")
        self._is_pumping = False
        self._last_stamp: Optional[Tuple[int, int]] = None
        self._is_good = False
        self._resend: Optional[asyncio.TimerHandle] = None
        self._resend_delay = _FIRST_RESEND
        self._pending: Dict[int, "asyncio.Future[Any]"] = {}
        self._transactions: Dict[int, _Transaction] = {}
        self._listeners = Listeners()
        self._connected_listeners: List[Callable[[bool], None]] = []
        self._connected_feeds: List[Feed[Any]] = []
        self._waiting: List["asyncio.Future[None]"] = []
        self._fault_listeners: List[Callable[[PresenceError], None]] = []
        self._tasks: "set[asyncio.Future[Any]]" = set()

    def _core_of(self, incarnation: int) -> core.Client:
        return core.Client(self._client, incarnation, LONGEST_UP)

    # ---- opening and closing

    async def __aenter__(self) -> "Database":
        await self.open()
        return self

    async def __aexit__(self, *about: Any) -> None:
        await self.close()

    async def open(self) -> None:
        """Takes the incarnation, and begins to connect. `async with` does it."""
        if self._task is not None:
            raise RuntimeError("the database is open, or was closed")
        check_package()
        self._core = self._core_of(await self._take_incarnation(0))
        self._stopped = None
        self._is_wanted = True
        self._task = asyncio.ensure_future(self._run())

    async def close(self) -> None:
        """Says Bye and closes the connection. What has no answer yet raises ClosedError. `async
        with` does it."""
        if self._task is None or self._task.done():
            return
        if self._stopped is None:
            self._go_off()
        try:
            # The Bye goes out.
            await asyncio.wait_for(self._is_unlinked.wait(), _MOST_CLOSING)
        except asyncio.TimeoutError:
            pass
        self._is_closed = True
        self._stop(ClosedError())
        for feed in self._connected_feeds:
            feed.end()
        self._task.cancel()
        await asyncio.gather(self._task, return_exceptions=True)

    async def _take_incarnation(self, above: int) -> int:
        if self._given is not None:
            return self._given
        # A sync of the disk may take long.
        return await asyncio.get_running_loop().run_in_executor(None, self._file.take, above)

    # ---- what a program calls

    @property
    def client(self) -> str:
        """The client id."""
        return self._client

    @property
    def is_connected(self) -> bool:
        """Whether a session is open."""
        return self._core.connected

    @property
    def incarnation(self) -> int:
        """Which start of the client this is."""
        return self._core.incarnation

    @overload
    def ref(self, path: Literal[".info/connected", "/.info/connected"]) -> ConnectedReference: ...

    @overload
    def ref(self, path: str = "/") -> Reference: ...

    def ref(self, path: str = "/") -> Union[Reference, ConnectedReference]:
        """The place of a path: a Reference. `.info/connected` is a ConnectedReference."""
        if path.strip("/") == ".info/connected":
            return ConnectedReference(self)
        return Reference(self, path_of(path))

    def connected(self) -> Stream[bool]:
        """Whether a session is open, and each change, for `async for`."""
        return self._connected_stream(bool)

    async def until_connected(self) -> None:
        """Returns once a session is open. Raises what ends the client before, as
        SupersededError."""
        self._check()
        if not self._core.connected:
            future: "asyncio.Future[None]" = asyncio.get_running_loop().create_future()
            self._waiting.append(future)
            try:
                await future
            finally:
                _discard(self._waiting, future)

    def on_fault(self, callback: Callable[[PresenceError], Any]) -> Unsubscribe:
        """Calls back with each fault of the server (a ServerFault), and with SupersededError where
        another connection of this client id takes over. What is returned stops that."""

        def tell(error: PresenceError) -> None:
            callback(error)

        self._fault_listeners.append(tell)
        return lambda: _discard(self._fault_listeners, tell)

    def go_offline(self) -> None:
        """Says Bye, and closes the connection until `go_online`. The server carries out what was
        left for the session's end. Writes are kept, and go out with the next session."""
        self._check()
        self._go_off()

    def _go_off(self) -> None:
        self._is_wanted = False
        self._core.go_offline()
        self._pump()
        if self._link is not None:
            self._link.finish()
        self._nudge.set()

    async def go_online(self) -> None:
        """Connects again after `go_offline`, and also where another connection of this client id
        has taken over: then as a new start of the client, which ends the other one."""
        if isinstance(self._stopped, SupersededError):
            await self._begin_again(self._stopped)
        self._check()
        self._is_wanted = True
        self._nudge.set()

    async def _begin_again(self, superseded: SupersededError) -> None:
        if self._given is not None:
            raise superseded
        incarnation = await self._take_incarnation(self._core.incarnation)
        if self._stopped is not superseded:
            return
        self._core = self._core_of(incarnation)
        self._listeners.forget_requests()
        self._stopped = None
        for path in self._listeners.paths():
            self._listeners.asked(self._core.listen(path), path)

    # ---- requests

    def _check(self) -> None:
        if self._stopped is not None:
            raise self._stopped

    def _request(self, make: Callable[[core.Client], int]) -> "asyncio.Future[Any]":
        self._check()
        request = make(self._core)
        future: "asyncio.Future[Any]" = asyncio.get_running_loop().create_future()
        self._pending[request] = future
        self._pump()
        return future

    def _transact(self, path: Path, update: Update) -> "asyncio.Future[TransactionResult]":
        self._check()
        request = self._core.transact(path)
        future: "asyncio.Future[TransactionResult]" = (
            asyncio.get_running_loop().create_future()
        )
        self._pending[request] = future
        self._transactions[request] = _Transaction(update)
        self._pump()
        return future

    def _settle(self, request: int, result: Any) -> None:
        future = self._pending.pop(request, None)
        if future is None or future.done():
            return
        if isinstance(result, BaseException):
            future.set_exception(result)
        else:
            future.set_result(result)

    # ---- transactions

    def _asked(self, notice: core.Ask) -> None:
        transaction = self._transactions.get(notice.request)
        if transaction is None:
            return
        transaction.value = copy_tree(notice.value)
        try:
            made = transaction.update(copy_tree(notice.value))
        except Exception as error:
            self._give_up(notice.request, transaction, error)
            return
        if inspect.isawaitable(made):
            self._spawn(self._answer_later(notice.request, transaction, made))
        else:
            self._answer(notice.request, transaction, made)

    async def _answer_later(self, request: int, transaction: _Transaction, made: Any) -> None:
        try:
            value = await made
        except asyncio.CancelledError:
            raise
        except Exception as error:
            if self._transactions.get(request) is transaction:
                self._give_up(request, transaction, error)
        else:
            # It may be over by now, as where the database was closed.
            if self._transactions.get(request) is transaction:
                self._answer(request, transaction, value)
        self._pump()

    def _answer(self, request: int, transaction: _Transaction, value: Any) -> None:
        if value is ABORT:
            self._give_up(request, transaction, None)
            return
        try:
            draft = draft_of(value)
            self._core.answer(request, draft)
        except (CallError, TypeError, ValueError) as error:
            self._give_up(request, transaction, error)
        else:
            transaction.value = draft

    def _give_up(
        self, request: int, transaction: _Transaction, error: Optional[BaseException]
    ) -> None:
        transaction.error = error
        self._core.abort(request)

    def _done(self, request: int, number: int) -> None:
        transaction = self._transactions.pop(request, None)
        if transaction is None:
            self._settle(request, number)
        else:
            value = copy_tree(transaction.value)
            self._settle(request, TransactionResult(True, number, value))

    def _aborted(self, request: int) -> None:
        transaction = self._transactions.pop(request, None)
        if transaction is None:
            return
        if transaction.error is not None:
            self._settle(request, transaction.error)
        else:
            self._settle(request, TransactionResult(False, None, transaction.value))

    # ---- listeners

    def _listen(self, path: Path, listener: Listener) -> Unsubscribe:
        self._check()
        if self._listeners.add(path, listener):
            try:
                self._listeners.asked(self._core.listen(path), path)
            except CallError:
                self._listeners.remove(path, listener)
                raise
            self._pump()
        return lambda: self._unlisten(path, listener)

    def _unlisten(self, path: Path, listener: Listener) -> None:
        if self._listeners.remove(path, listener) and self._stopped is None:
            self._core.unlisten(path)
            self._pump()

    def _shown(self, path: Path) -> Optional[Snapshot]:
        view = self._core.view(path)
        return None if view is None else Snapshot(path, view[0], view[1])

    def _tell_now(self, path: Path, listener: Listener) -> None:
        # A new listener of a path that shows a value gets that one.
        shown = self._shown(path)
        if shown is not None and not listener.was_told:
            listener.was_told = True
            listener.tell(shown)

    def _subscribe(
        self,
        path: Path,
        callback: Callable[[Snapshot], Any],
        on_error: Optional[Callable[[Exception], Any]],
    ) -> Unsubscribe:
        is_on = [True]

        def tell(snapshot: Snapshot) -> None:
            if is_on[0]:
                self._call_back(callback, snapshot)

        def fail(error: Exception) -> None:
            if on_error is not None and not isinstance(error, ClosedError):
                self._call_back(on_error, error)

        listener = Listener(tell, fail)
        stop = self._listen(path, listener)
        asyncio.get_running_loop().call_soon(self._tell_now, path, listener)

        def unsubscribe() -> None:
            if is_on[0]:
                is_on[0] = False
                stop()

        return unsubscribe

    def _values(self, path: Path) -> Stream[Snapshot]:
        feed: Feed[Snapshot] = Feed()

        def fail(error: Exception) -> None:
            feed.end(None if isinstance(error, ClosedError) else error)

        listener = Listener(feed.put, fail)
        stop = self._listen(path, listener)
        self._tell_now(path, listener)
        return Stream(feed, stop)

    async def _get(self, path: Path) -> Snapshot:
        self._check()
        if self._core.is_live(path):
            shown = self._shown(path)
            if shown is not None:
                return shown
        future: "asyncio.Future[Snapshot]" = asyncio.get_running_loop().create_future()

        def tell(snapshot: Snapshot) -> None:
            if not future.done():
                future.set_result(snapshot)

        def fail(error: Exception) -> None:
            if not future.done():
                future.set_exception(error)

        stop = self._listen(path, Listener(tell, fail))
        try:
            return await future
        finally:
            stop()

    def _on_connected(self, callback: Callable[[bool], Any]) -> Unsubscribe:
        self._check()
        is_told: List[bool] = []

        def tell(is_open: bool) -> None:
            is_told.append(is_open)
            self._call_back(callback, is_open)

        def tell_now() -> None:
            if not is_told and tell in self._connected_listeners:
                tell(self._core.connected)

        self._connected_listeners.append(tell)
        asyncio.get_running_loop().call_soon(tell_now)
        return lambda: _discard(self._connected_listeners, tell)

    def _connected_stream(self, made: Callable[[bool], T]) -> Stream[T]:
        self._check()
        feed: Feed[T] = Feed()
        feed.put(made(self._core.connected))

        def tell(is_open: bool) -> None:
            feed.put(made(is_open))

        def stop() -> None:
            _discard(self._connected_listeners, tell)
            _discard(self._connected_feeds, feed)

        self._connected_listeners.append(tell)
        self._connected_feeds.append(feed)
        return Stream(feed, stop)

    # ---- notices

    def _pump(self) -> None:
        # Tells what the core noted, and sends what it made, until it has nothing more.
        if self._is_pumping:
            return
        self._is_pumping = True
        try:
            while True:
                sends, notices = self._core.take_sends(), self._core.take_notices()
                if not sends and not notices:
                    return
                if self._link is not None:
                    self._link.send(sends)
                for notice in notices:
                    self._tell(notice)
        finally:
            self._is_pumping = False

    def _tell(self, notice: core.Notice) -> None:
        if isinstance(notice, core.Value):
            snapshot = Snapshot(notice.path, notice.number, notice.value)
            self._listeners.tell(snapshot, notice.path)
        elif isinstance(notice, core.Done):
            self._done(notice.request, notice.number)
        elif isinstance(notice, core.Ask):
            self._asked(notice)
        elif isinstance(notice, core.Connected):
            self._tell_connected(notice.is_open)
        elif isinstance(notice, core.Faulted):
            self._faulted(notice)
        else:
            self._tell_end(notice)

    def _tell_end(self, notice: Any) -> None:
        if isinstance(notice, core.Armed):
            self._settle(notice.request, None)
        elif isinstance(notice, core.ActionLost):
            self._settle(notice.request, ActionLostError())
        elif isinstance(notice, core.TooManyTries):
            self._transactions.pop(notice.request, None)
            self._settle(notice.request, TooManyTriesError())
        elif isinstance(notice, core.Aborted):
            self._aborted(notice.request)
        elif notice.why == DENIED_LISTENS:
            self._listeners.denied(notice.request, ListensFullError())
        else:
            self._settle(notice.request, PlanFullError())

    def _tell_connected(self, is_open: bool) -> None:
        if is_open:
            self._is_good = True
            for future in self._waiting:
                if not future.done():
                    future.set_result(None)
        for tell in list(self._connected_listeners):
            tell(is_open)

    def _call_back(self, callback: Callable[[Any], Any], about: Any) -> None:
        # What a program's function raises goes to the loop's exception handler.
        try:
            callback(about)
        except Exception as error:
            asyncio.get_running_loop().call_exception_handler(
                {"message": "a callback of presence_client failed", "exception": error}
            )

    def _spawn(self, coroutine: Any) -> None:
        task = asyncio.ensure_future(coroutine)
        self._tasks.add(task)
        task.add_done_callback(self._tasks.discard)

    # ---- faults, and the end

    def _report(self, error: PresenceError) -> None:
        log.warning("%s: %s", self._client, error)
        for tell in list(self._fault_listeners):
            self._call_back(tell, error)

    def _faulted(self, notice: core.Faulted) -> None:
        error = server_fault(notice.code, notice.last)
        self._report(error)
        if notice.code == CODE_OLD and not self._core.connected:
            self._last_stamp = notice.last
        elif self._core.connected and notice.code in (CODE_ORDER, CODE_BUSY):
            self._resend_soon()
        else:
            self._is_good = False
            if self._link is not None:
                self._link.drop()

    def _resend_soon(self) -> None:
        if self._resend is None:
            delay = self._resend_delay * random.uniform(0.5, 1.0)
            self._resend_delay = min(2 * self._resend_delay, _MOST_RESEND)
            self._resend = asyncio.get_running_loop().call_later(delay, self._resend_now)

    def _cancel_resend(self) -> None:
        if self._resend is not None:
            self._resend.cancel()
            self._resend = None

    def _resend_now(self) -> None:
        self._resend = None
        self._core.resend()
        self._pump()

    def _stop(self, error: PresenceError) -> None:
        # Whatever waits for an answer raises the error.
        self._stopped = error
        self._is_wanted = False
        self._nudge.set()
        self._cancel_resend()
        if self._link is not None:
            self._link.drop()
        pending, self._pending = self._pending, {}
        self._transactions.clear()
        for future in [*pending.values(), *self._waiting]:
            if not future.done():
                future.set_exception(error)
        self._listeners.end(error)

    def _supersede(self) -> None:
        error = SupersededError()
        self._core.lost()
        self._pump()
        self._stop(error)
        self._report(error)

    # ---- the connection

    async def _run(self) -> None:
        try:
            await self._keep()
        except asyncio.CancelledError:
            raise
        except Exception as error:  # a fault of this library: nobody waits in vain
            self._stop(ClosedError(f"the client failed: {error!r}"))
            raise

    async def _keep(self) -> None:
        failures = 0
        while not self._is_closed:
            self._nudge.clear()
            if not self._is_wanted:
                await self._nudge.wait()
                continue
            self._is_good = False
            await self._session()
            failures = 0 if self._is_good else failures + 1
            if self._last_stamp is not None:
                last, self._last_stamp = self._last_stamp, None
                await self._renew(last)
            elif self._is_wanted:
                await self._wait(self._delay(failures))

    def _delay(self, failures: int) -> float:
        most = min(self._most_delay, self._first_delay * 2.0 ** min(failures, 30))
        return most * random.uniform(0.5, 1.0)

    async def _wait(self, seconds: float) -> None:
        # Until the time is over, or `go_online` or `close` is called.
        try:
            await asyncio.wait_for(self._nudge.wait(), seconds)
        except asyncio.TimeoutError:
            pass

    async def _renew(self, last: Tuple[int, int]) -> None:
        # The number that is kept isn't the newest of this client: its file was lost, or another
        # program has started since.
        if self._core.was_welcomed:
            self._supersede()
        elif self._given is not None:
            self._stop(OldFault("hand in a greater incarnation", last))
        else:
            self._core.renew(await self._take_incarnation(last[0]))

    async def _session(self) -> None:
        try:
            link = await Link.open(self._url, self._open_timeout, self._answer_timeout)
        except LinkError as error:
            log.info("%s: %s", self._client, error)
            return
        self._link = link
        self._is_unlinked.clear()
        self._resend_delay = _FIRST_RESEND
        keeping = asyncio.ensure_future(self._keep_alive(link))
        try:
            if self._is_wanted:
                self._core.go_online()
                self._pump()
            else:
                link.finish()
            await link.run(lambda text: self._receive(link, text))
        finally:
            keeping.cancel()
            self._link = None
            self._is_unlinked.set()
            self._cancel_resend()
            self._core.lost()
            self._pump()

    async def _keep_alive(self, link: Link) -> None:
        loop = asyncio.get_running_loop()
        last_beat = loop.time()
        while True:
            await asyncio.sleep(min(self._beat, self._answer_timeout) / 4)
            if loop.time() - last_beat >= self._beat * 0.9:
                last_beat = loop.time()
                self._core.beat()
                self._pump()
            silent = loop.time() - link.last_heard
            if self._core.unanswered and silent > self._answer_timeout:
                log.info("%s: no answer for %.0f s", self._client, silent)
                link.drop()
                return

    def _receive(self, link: Link, text: str) -> None:
        if self._link is not link or self._stopped is not None:
            return
        try:
            message = messages.read_down(text)
        except messages.NotAMessage as error:
            log.warning("%s: what came is no message: %s", self._client, error)
            link.drop()
            return
        if self._core.misses(message):
            log.warning("%s: a message is missing", self._client)
            link.drop()
            return
        is_end = isinstance(message, messages.Gone) and self._core.accepts(message)
        self._core.receive(message)
        self._pump()
        if isinstance(message, messages.Gone) and is_end and message.why == "superseded":
            self._supersede()
        elif self._core.phase == core.OFF and self._is_wanted:
            link.drop()
        elif not isinstance(message, messages.Fault):
            self._resend_delay = _FIRST_RESEND


def _discard(items: List[Any], item: Any) -> None:
    if item in items:
        items.remove(item)
