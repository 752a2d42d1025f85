"""Values that come one after another."""

from __future__ import annotations

import asyncio
from collections import deque
from typing import Any, Callable, Deque, Generic, Optional, TypeVar

T = TypeVar("T")


class Feed(Generic[T]):
    """What was put and not taken yet, in order, and how it ended."""

    def __init__(self) -> None:
        self._items: Deque[T] = deque()
        self._is_ended = False
        self._error: Optional[BaseException] = None
        self._waiter: Optional["asyncio.Future[None]"] = None

    def put(self, item: T) -> None:
        """One item more."""
        if not self._is_ended:
            self._items.append(item)
            self._wake()

    def end(self, error: Optional[BaseException] = None) -> None:
        """No more items come. Once all items are taken, the error is raised."""
        if not self._is_ended:
            self._is_ended = True
            self._error = error
            self._wake()

    def _wake(self) -> None:
        if self._waiter is not None and not self._waiter.done():
            self._waiter.set_result(None)

    async def take(self) -> T:
        """The next item."""
        while not self._items:
            if self._is_ended:
                raise StopAsyncIteration() if self._error is None else self._error
            self._waiter = asyncio.get_running_loop().create_future()
            await self._waiter
        return self._items.popleft()


class Stream(Generic[T]):
    """Values as they come, for `async for`. It stops listening once the loop is left and nobody
    holds it, or by `close`; `async with` closes it too."""

    def __init__(self, feed: Feed[T], stop: Callable[[], None]) -> None:
        self._feed = feed
        self._stop: Optional[Callable[[], None]] = stop

    def __aiter__(self) -> "Stream[T]":
        return self

    async def __anext__(self) -> T:
        return await self._feed.take()

    async def __aenter__(self) -> "Stream[T]":
        return self

    async def __aexit__(self, *about: Any) -> None:
        self.close()

    def close(self) -> None:
        """Listens no more."""
        stop, self._stop = self._stop, None
        if stop is not None:
            stop()
            self._feed.end()

    def __del__(self) -> None:
        try:
            self.close()
        except RuntimeError:  # its event loop is closed
            pass
