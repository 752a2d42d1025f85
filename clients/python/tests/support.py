"""What tests of the shell stand on: a server's process, a relay that cuts connections, and a server
that answers what a test says."""

from __future__ import annotations

import asyncio
import json
import logging
import os
import shutil
import socket
import tempfile
import unittest
from pathlib import Path
from typing import Any, Awaitable, Callable, List, Optional

import websockets

from presence_client import Database, connect

logging.getLogger("presence_client").setLevel(logging.CRITICAL)

PROGRAM = os.environ.get("PRESENCE_PROGRAM", "")
# Seconds that anything may take. A program that checks itself as it runs may want more.
LONG = float(os.environ.get("PRESENCE_TEST_SECONDS", "60"))


def free_port() -> int:
    """A port that nobody listens to now."""
    with socket.socket() as found:
        found.bind(("127.0.0.1", 0))
        port: int = found.getsockname()[1]
        return port


async def until(test: Callable[[], Any], seconds: float = LONG) -> None:
    """Returns once the test holds."""
    end = asyncio.get_running_loop().time() + seconds
    while not test():
        if asyncio.get_running_loop().time() > end:
            raise AssertionError("what was awaited didn't come")
        await asyncio.sleep(0.01)


class Server:
    """A server's process over a file, at one port."""

    def __init__(self, folder: Path) -> None:
        self.port = free_port()
        self._file = folder / "presence.db"
        self._process: Optional[asyncio.subprocess.Process] = None

    @property
    def url(self) -> str:
        return f"ws://127.0.0.1:{self.port}/"

    async def start(self) -> None:
        """Starts it, and returns once it listens."""
        self._process = await asyncio.create_subprocess_exec(
            PROGRAM,
            "serve",
            f"127.0.0.1:{self.port}",
            str(self._file),
            stdout=asyncio.subprocess.PIPE,
        )
        assert self._process.stdout is not None
        line = await asyncio.wait_for(self._process.stdout.readline(), LONG)
        assert line.startswith(b"listening"), line

    async def kill(self) -> None:
        """Kills it by signal 9."""
        if self._process is not None:
            self._process.kill()
            await self._process.wait()
            self._process = None


class Relay:
    """Stands between clients and a server, and cuts."""

    def __init__(self, port: int) -> None:
        self._to = port
        self._listening: Optional[asyncio.AbstractServer] = None
        self._open: List[asyncio.StreamWriter] = []
        #: Asked of the bytes of the server's answers. What is true cuts, and drops them.
        self.cuts_at: Callable[[bytes], bool] = lambda data: False
        #: How many connections came.
        self.connections = 0
        self.port = 0

    @property
    def url(self) -> str:
        return f"ws://127.0.0.1:{self.port}/"

    async def start(self) -> None:
        self._listening = await asyncio.start_server(self._serve, "127.0.0.1", 0)
        self.port = self._listening.sockets[0].getsockname()[1]

    def cut(self) -> None:
        """Cuts all connections."""
        open_now, self._open = self._open, []
        for writer in open_now:
            writer.transport.abort()

    async def close(self) -> None:
        self.cut()
        if self._listening is not None:
            self._listening.close()

    async def _serve(self, reader: asyncio.StreamReader, writer: asyncio.StreamWriter) -> None:
        self.connections += 1
        try:
            far_reader, far_writer = await asyncio.open_connection("127.0.0.1", self._to)
        except OSError:
            writer.transport.abort()
            return
        self._open += [writer, far_writer]
        await asyncio.gather(
            self._copy(reader, far_writer, lambda data: False),
            self._copy(far_reader, writer, lambda data: self.cuts_at(data)),
        )
        for each in (writer, far_writer):
            each.transport.abort()

    async def _copy(
        self,
        reader: asyncio.StreamReader,
        writer: asyncio.StreamWriter,
        cuts: Callable[[bytes], bool],
    ) -> None:
        try:
            while data := await reader.read(65536):
                if cuts(data):
                    self.cut()
                    return
                writer.write(data)
                await writer.drain()
            writer.close()
        except OSError:
            writer.transport.abort()


Script = Callable[["Peer"], Awaitable[None]]


class PeerLeft(Exception):
    """The client said Bye."""


class Peer:
    """One connection of a FakeServer."""

    def __init__(self, connection: Any) -> None:
        self._connection = connection
        self.session: Any = None
        self.r = 0

    async def read(self) -> Any:
        """The next message. A Bye ends the script."""
        message = json.loads(await self._connection.recv())
        if message["m"] == "bye":
            raise PeerLeft()
        return message

    async def hello(self) -> Any:
        """The Hello that a connection begins with."""
        message = await self.read()
        assert message["m"] == "hello", message
        self.session = message["s"]
        return message

    async def send(self, word: str, **fields: Any) -> None:
        """Sends a message of the session."""
        await self._connection.send(json.dumps({"m": word, "s": self.session, **fields}))

    async def answer(self, word: str, **fields: Any) -> None:
        """Sends the next message of the session's stream."""
        self.r += 1
        await self.send(word, r=self.r, z=self.r + 1, **fields)

    async def welcome(self, ops: int = 0) -> None:
        """Opens the session."""
        await self.hello()
        await self.send("welcome", z=1, ops=ops)

    async def wait(self) -> None:
        """Until the client closes the connection."""
        await self._connection.wait_closed()


class FakeServer:
    """A server that does what a test says: one script for each connection, the last one for all
    further ones."""

    def __init__(self, *scripts: Script) -> None:
        self._scripts = scripts
        self._listening: Any = None
        self.port = 0
        #: When each connection came.
        self.times: List[float] = []
        #: What scripts raised.
        self.errors: List[BaseException] = []

    @property
    def url(self) -> str:
        return f"ws://127.0.0.1:{self.port}/"

    async def start(self) -> None:
        self._listening = await websockets.serve(self._serve, "127.0.0.1", 0)
        self.port = next(iter(self._listening.sockets)).getsockname()[1]

    async def close(self) -> None:
        self._listening.close()
        await self._listening.wait_closed()

    async def _serve(self, connection: Any, path: str = "") -> None:
        script = self._scripts[min(len(self.times), len(self._scripts) - 1)]
        self.times.append(asyncio.get_running_loop().time())
        try:
            await script(Peer(connection))
        except (websockets.ConnectionClosed, PeerLeft):
            pass
        except BaseException as error:
            self.errors.append(error)
            raise


class ShellTest(unittest.IsolatedAsyncioTestCase):
    """A test with a folder of its own, and with whatever it opened closed at its end."""

    def setUp(self) -> None:
        self.folder = Path(tempfile.mkdtemp())
        self.addCleanup(shutil.rmtree, self.folder, ignore_errors=True)

    async def asyncSetUp(self) -> None:
        # A debugging loop tells of each step that a busy machine delays.
        asyncio.get_running_loop().set_debug(False)

    def database(self, url: str, client: str = "alice", **given: Any) -> Database:
        """A client with a file of its own, which connects again without much waiting."""
        given.setdefault("storage", self.folder / f"{client}.incarnation")
        given.setdefault("first_delay", 0.02)
        given.setdefault("most_delay", 0.5)
        return connect(url, client, **given)

    async def opened(self, url: str, client: str = "alice", **given: Any) -> Database:
        """The same, connected."""
        db = self.database(url, client, **given)
        await db.open()
        self.addAsyncCleanup(db.close)
        await asyncio.wait_for(db.until_connected(), LONG)
        return db

    async def server(self) -> Server:
        """A server's process."""
        if not PROGRAM:
            self.fail("PRESENCE_PROGRAM names no program")
        server = Server(self.folder)
        await server.start()
        self.addAsyncCleanup(server.kill)
        return server

    async def relay(self, server: Server) -> Relay:
        """A relay before the server."""
        relay = Relay(server.port)
        await relay.start()
        self.addAsyncCleanup(relay.close)
        return relay

    async def fake(self, *scripts: Script) -> FakeServer:
        """A server that does what the scripts say."""
        fake = FakeServer(*scripts)
        await fake.start()
        self.addAsyncCleanup(fake.close)
        self.addCleanup(lambda: self.assertEqual(fake.errors, []))
        return fake
