"""One connection to a server: texts go out in their order, and come in."""

from __future__ import annotations

import asyncio
import logging
from typing import Any, Callable, List, Optional

try:
    import websockets
    from websockets.exceptions import WebSocketException
except ModuleNotFoundError:  # the core does without it
    websockets = None  # type: ignore[assignment]

log = logging.getLogger("presence_client")

_CLOSING = 2.0  # seconds that the peer has to close its side


class LinkError(Exception):
    """There is no connection."""


def check_package() -> None:
    """Raises ModuleNotFoundError where the package websockets is missing."""
    if websockets is None:
        raise ModuleNotFoundError(
            "presence_client wants the package websockets (Debian: python3-websockets)"
        )


class Link:
    """An open connection. It is run by `run`, which ends with the connection."""

    def __init__(self, socket: Any) -> None:
        self._socket = socket
        self._out: "asyncio.Queue[Optional[str]]" = asyncio.Queue()
        self._dropped = asyncio.Event()
        self.last_heard = asyncio.get_running_loop().time()

    @classmethod
    async def open(cls, url: str, timeout: float, ping: float) -> "Link":
        """Connects. Raises LinkError."""
        try:
            opening = websockets.connect(
                url,
                max_size=None,
                compression=None,
                ping_interval=ping,
                ping_timeout=ping,
                close_timeout=_CLOSING,
            )
            return cls(await asyncio.wait_for(opening, timeout))
        except (OSError, WebSocketException, asyncio.TimeoutError) as error:
            raise LinkError(f"{type(error).__name__}: {error}") from None

    def send(self, texts: List[str]) -> None:
        """These texts go out next."""
        for text in texts:
            self._out.put_nowait(text)

    def finish(self) -> None:
        """Nothing more goes out, and the connection is closed then."""
        self._out.put_nowait(None)

    def drop(self) -> None:
        """The connection is given up."""
        self._dropped.set()

    async def run(self, receive: Callable[[str], None]) -> None:
        """Sends, and hands in each text that comes, until the connection is over."""
        tasks = [
            asyncio.ensure_future(self._read(receive)),
            asyncio.ensure_future(self._write()),
            asyncio.ensure_future(self._dropped.wait()),
        ]
        try:
            await asyncio.wait(tasks, return_when=asyncio.FIRST_COMPLETED)
        finally:
            for task in tasks:
                task.cancel()
            await asyncio.gather(*tasks, return_exceptions=True)
            await self._close()
        for task in tasks[:2]:
            self._raise_of(task)

    def _raise_of(self, task: "asyncio.Future[Any]") -> None:
        # A connection that ends is no error; anything else is one of this library.
        error = None if task.cancelled() else task.exception()
        if error is not None and not isinstance(error, (OSError, WebSocketException)):
            raise error

    async def _read(self, receive: Callable[[str], None]) -> None:
        async for text in self._socket:
            self.last_heard = asyncio.get_running_loop().time()
            if isinstance(text, str):
                receive(text)

    async def _write(self) -> None:
        while True:
            text = await self._out.get()
            if text is None:
                return
            await self._socket.send(text)

    async def _close(self) -> None:
        try:
            await asyncio.wait_for(self._socket.close(), 2 * _CLOSING)
        except (OSError, WebSocketException, asyncio.TimeoutError):
            pass
