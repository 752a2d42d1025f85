"""What the library does where a server refuses, breaks off, or speaks nonsense."""

from __future__ import annotations

import asyncio
import json
from typing import Any, List

from presence_client import errors
from tests.support import LONG, Peer, ShellTest, until


async def opens(peer: Peer) -> None:
    """Opens the session, and answers each write."""
    await peer.welcome()
    await answers(peer)


async def answers(peer: Peer) -> None:
    """Answers each write and each listen."""
    while True:
        message = await peer.read()
        if message["m"] == "op":
            await peer.answer("reply", q=message["q"], n=message["n"], done=1, out="wrote")
        elif message["m"] == "on":
            await peer.answer("snap", q=message["q"], path=message["path"], value=1)


def refuses(code: int, **more: Any) -> Any:
    """Refuses the Hello."""

    async def script(peer: Peer) -> None:
        await peer.hello()
        await peer.send("fault", code=code, **more)
        await peer.wait()

    return script


class Hellos(ShellTest):
    async def told(self, *scripts: Any, **given: Any) -> List[Any]:
        # The faults until a client is connected.
        fake = await self.fake(*scripts)
        db = self.database(fake.url, **given)
        faults: List[Any] = []
        db.on_fault(faults.append)
        await db.open()
        self.addAsyncCleanup(db.close)
        await asyncio.wait_for(db.until_connected(), LONG)
        return faults

    async def test_each_code(self) -> None:
        for code, kind in [
            (1, errors.BadFault),
            (3, errors.SessionFault),
            (4, errors.OrderFault),
            (5, errors.FullFault),
            (6, errors.BusyFault),
            (7, errors.SpentFault),
            (8, errors.DownFault),
        ]:
            with self.subTest(code=code):
                faults = await self.told(refuses(code), opens)
                self.assertEqual([type(fault) for fault in faults], [kind])
                self.assertEqual(faults[0].number, code)

    async def test_old(self) -> None:
        async def newer(peer: Peer) -> None:
            await peer.welcome()
            assert peer.session[1:] == [8, 1], peer.session
            await peer.wait()

        faults = await self.told(refuses(2, last=[7, 3]), newer, client="old")
        self.assertEqual([type(fault) for fault in faults], [errors.OldFault])
        self.assertEqual(faults[0].last, (7, 3))

    async def test_attempts_rise_and_come_slower(self) -> None:
        fake = await self.fake(refuses(5))
        db = self.database(fake.url, first_delay=0.05, most_delay=0.4)
        await db.open()
        self.addAsyncCleanup(db.close)
        await until(lambda: len(fake.times) >= 7)
        gaps = [later - earlier for earlier, later in zip(fake.times, fake.times[1:])]
        self.assertGreaterEqual(gaps[-1], 0.2)
        self.assertGreater(gaps[-1], gaps[0])

    async def test_no_server(self) -> None:
        fake = await self.fake(opens)
        await fake.close()
        db = self.database(fake.url)
        await db.open()
        waiting = db.ref("/a").set(1)
        await asyncio.sleep(0.3)
        self.assertFalse(waiting.done())
        await db.close()
        with self.assertRaises(errors.ClosedError):
            await waiting


class OpenSessions(ShellTest):
    async def test_busy_is_sent_again(self) -> None:
        seen: List[Any] = []

        async def busy(peer: Peer) -> None:
            await peer.welcome()
            for code in (6, 4):
                message = await peer.read()
                seen.append((message["q"], message["n"]))
                await peer.send("fault", code=code)
            for _ in range(2):
                message = await peer.read()
                seen.append((message["q"], message["n"]))
                q, n = message["q"], message["n"]
                await peer.answer("reply", q=q, n=n, done=n + 1, out="wrote")
            await peer.wait()

        fake = await self.fake(busy)
        db = await self.opened(fake.url)
        faults: List[Any] = []
        db.on_fault(faults.append)
        waiting = [db.ref("/a").set(1), db.ref("/b").set(2)]
        self.assertEqual(await asyncio.wait_for(asyncio.gather(*waiting), LONG), [2, 3])
        self.assertEqual(seen, [(1, 1), (2, 2), (1, 1), (2, 2)])
        self.assertEqual([fault.number for fault in faults], [6, 4])
        self.assertEqual(len(fake.times), 1)

    async def after_fault(self, code: int) -> List[int]:
        # The write is refused by the code, and answered by the next session.
        async def refuses_write(peer: Peer) -> None:
            await peer.welcome()
            await peer.read()
            await peer.send("fault", code=code)
            await peer.wait()

        fake = await self.fake(refuses_write, opens)
        db = await self.opened(fake.url)
        faults: List[Any] = []
        db.on_fault(faults.append)
        self.assertEqual(await asyncio.wait_for(db.ref("/a").set(1), LONG), 1)
        self.assertEqual(len(fake.times), 2)
        await db.close()
        await fake.close()
        return [fault.number for fault in faults]

    async def test_other_codes_give_the_connection_up(self) -> None:
        for code in (1, 3, 7, 8):
            with self.subTest(code=code):
                self.assertEqual(await self.after_fault(code), [code])

    async def test_a_write_that_is_always_bad_comes_slower(self) -> None:
        async def bad(peer: Peer) -> None:
            await peer.welcome()
            await peer.read()
            await peer.send("fault", code=1)
            await peer.wait()

        fake = await self.fake(bad)
        db = await self.opened(fake.url, first_delay=0.05, most_delay=0.4)
        waiting = db.ref("/a").set(1)
        await until(lambda: len(fake.times) >= 6)
        self.assertGreaterEqual(fake.times[-1] - fake.times[-2], 0.2)
        await db.close()
        self.assertIsInstance(waiting.exception(), errors.ClosedError)

    async def test_nonsense_gives_the_connection_up(self) -> None:
        def says(text: str) -> Any:
            async def script(peer: Peer) -> None:
                await peer.welcome()
                await peer._connection.send(text)
                await peer.wait()

            return script

        async def misses(peer: Peer) -> None:
            await peer.welcome()
            peer.r = 1
            await peer.answer("push", values=[["/a", 1]])
            await peer.wait()

        async def unfit(peer: Peer) -> None:
            await peer.welcome()
            await peer.answer("armed", q=1)
            await peer.wait()

        for script in (says("{"), says('{"m":"hi"}'), misses, unfit):
            fake = await self.fake(script, opens)
            db = await self.opened(fake.url)
            await until(lambda: len(fake.times) == 2)
            self.assertEqual(await asyncio.wait_for(db.ref("/a").set(1), LONG), 1)
            await db.close()

    async def test_an_action_is_lost_with_its_session(self) -> None:
        async def breaks(peer: Peer) -> None:
            await peer.welcome()
            await peer.read()

        fake = await self.fake(breaks, opens)
        db = await self.opened(fake.url)
        with self.assertRaises(errors.ActionLostError):
            await asyncio.wait_for(db.ref("/a").on_disconnect().set(1), LONG)

    async def test_ends_of_a_session(self) -> None:
        for why in ("lost", "lease", "slow", "restart"):
            with self.subTest(why=why):

                async def ends(peer: Peer, why: str = why) -> None:
                    await peer.welcome()
                    await peer.answer("gone", why=why)
                    await peer.wait()

                fake = await self.fake(ends, opens)
                db = await self.opened(fake.url)
                await until(lambda: len(fake.times) == 2)
                await asyncio.wait_for(db.ref("/a").set(1), LONG)
                await db.close()

    async def test_overtaken_25_times(self) -> None:
        tries: List[Any] = []

        async def overtakes(peer: Peer) -> None:
            await peer.welcome()
            while True:
                message = await peer.read()
                tries.append(message["op"]["expect"])
                q, n = message["q"], message["n"]
                await peer.answer("reply", q=q, n=n, done=n + 1, out={"stale": n * 10})

        fake = await self.fake(overtakes)
        db = await self.opened(fake.url)
        with self.assertRaises(errors.TooManyTriesError):
            await asyncio.wait_for(db.ref("/n").transaction(lambda value: 1), LONG)
        self.assertEqual(tries, [None] + [n * 10 for n in range(1, 25)])

    async def test_a_denied_listen_isnt_the_next_one(self) -> None:
        async def denies(peer: Peer) -> None:
            await peer.welcome()
            asked = [await peer.read() for _ in range(3)]
            assert [message["m"] for message in asked] == ["on", "off", "on"], asked
            await peer.answer("denied", q=1, why=2)
            await peer.answer("offdone", q=2)
            await peer.answer("snap", q=3, path="/a", value=7)
            await peer.read()

        fake = await self.fake(denies)
        db = await self.opened(fake.url)
        failed: List[Any] = []
        seen: List[Any] = []
        db.ref("/a").on_value(lambda shown: None, failed.append)()
        db.ref("/a").on_value(lambda shown: seen.append(shown.value), failed.append)
        await until(lambda: seen == [7])
        self.assertEqual(failed, [])

    async def test_silence_gives_the_connection_up(self) -> None:
        async def silent(peer: Peer) -> None:
            await peer.welcome()
            await peer.wait()

        fake = await self.fake(silent, opens)
        db = await self.opened(fake.url, answer_timeout=0.5)
        self.assertEqual(await asyncio.wait_for(db.ref("/a").set(1), LONG), 1)
        self.assertEqual(len(fake.times), 2)

    async def test_beats(self) -> None:
        beats: List[Any] = []

        async def counts(peer: Peer) -> None:
            await peer.welcome()
            while True:
                beats.append(await peer.read())

        fake = await self.fake(counts)
        await self.opened(fake.url, beat=0.2)
        await until(lambda: len(beats) >= 3)
        self.assertEqual(beats[0], {"m": "beat", "s": ["alice", 1, 1]})

    async def test_the_number_is_kept_before_the_first_packet(self) -> None:
        kept: List[str] = []
        file = self.folder / "deep" / "alice"

        async def looks(peer: Peer) -> None:
            message = await peer.hello()
            kept.append(file.read_text())
            assert message["s"] == ["alice", len(kept), 1], message
            await peer.send("welcome", z=1, ops=0)
            await peer.wait()

        fake = await self.fake(looks)
        for _ in range(3):
            db = await self.opened(fake.url, storage=file)
            await db.close()
        self.assertEqual(kept, ["1\n", "2\n", "3\n"])
        file.write_text("my notes\n")
        with self.assertRaises(ValueError):
            await self.database(fake.url, storage=file).open()
        self.assertEqual(file.read_text(), "my notes\n")

    async def test_messages_are_those_of_the_protocol(self) -> None:
        texts: List[str] = []

        async def collects(peer: Peer) -> None:
            while True:
                text = await peer._connection.recv()
                texts.append(text)
                message = json.loads(text)
                peer.session = message["s"]
                if message["m"] == "hello":
                    await peer.send("welcome", z=1, ops=0)
                elif message["m"] == "left":
                    await peer.answer("armed", q=message["q"])

        fake = await self.fake(collects)
        async with self.database(fake.url) as db:
            await asyncio.wait_for(db.until_connected(), LONG)
            await db.ref("/a").on_disconnect().update({"b": 1, "a/c": None})
        await until(lambda: len(texts) == 3)
        left = '{"op":"update","path":"/a","values":{"a/c":null,"b":1}}'
        self.assertEqual(
            texts,
            [
                '{"m":"hello","s":["alice",1,1]}',
                '{"m":"left","op":%s,"q":1,"s":["alice",1,1]}' % left,
                '{"m":"bye","q":2,"s":["alice",1,1]}',
            ],
        )
