"""The library against the real server, its process killed and its connections cut."""

from __future__ import annotations

import asyncio
import os
import sys
from pathlib import Path
from typing import Any, List

from presence_client import ABORT, SERVER_TIMESTAMP, Increment, Snapshot, errors
from presence_client.database import Database
from tests.support import LONG, ShellTest, until

PACKAGE = Path(__file__).resolve().parent.parent


def _end(process: asyncio.subprocess.Process) -> None:
    if process.returncode is None:
        process.kill()


class Calls(ShellTest):
    async def test_values_and_writes(self) -> None:
        server = await self.server()
        db = await self.opened(server.url)
        ref = db.ref("/a")
        number = await ref.set({"x": 1, "y": [1, None, 2], "z": None})
        got = await ref.get()
        self.assertEqual(got.value, {"x": 1, "y": {"0": 1, "2": 2}})
        self.assertGreater(got.number, number)
        await ref.update({"y/0": 5, "x": None})
        self.assertEqual((await ref.get()).value, {"y": {"0": 5, "2": 2}})
        self.assertEqual((await ref.child("y").get()).child("2").value, 2)
        await ref.set(SERVER_TIMESTAMP)
        self.assertGreater((await ref.get()).value, 1_600_000_000_000)
        await ref.remove()
        self.assertFalse((await ref.get()).exists)
        biggest = {"most": 2**63 - 1, "least": -(2**63), "é\U0001f600": "\x00\"\\ \u2028"}
        await ref.set(biggest)
        self.assertEqual((await ref.get()).value, biggest)

    async def test_listeners(self) -> None:
        server = await self.server()
        alice = await self.opened(server.url)
        bob = await self.opened(server.url, "bob")
        told: List[Any] = []
        stop = bob.ref("/a").on_value(lambda shown: told.append(shown.value))
        await until(lambda: told == [None])
        await alice.ref("/a/b").set(1)
        await until(lambda: told[-1] == {"b": 1})
        again: List[Any] = []
        bob.ref("/a").on_value(lambda shown: again.append(shown.value))
        await until(lambda: again == [{"b": 1}])
        stop()
        await alice.ref("/a").set(2)
        await until(lambda: again[-1] == 2)
        self.assertEqual(told, [None, {"b": 1}])

    async def test_values_end_with_their_loop(self) -> None:
        server = await self.server()
        db = await self.opened(server.url)
        seen = []
        async for shown in db.ref("/n").values():
            seen.append(shown.value)
            if shown.value == 3:
                break
            await db.ref("/n").set((shown.value or 0) + 1)
        self.assertEqual(seen, [None, 1, 2, 3])
        self.assertIsNone(db._core.view(("n",)))

    async def test_aborted_and_failed_transactions(self) -> None:
        server = await self.server()
        db = await self.opened(server.url)
        ref = db.ref("/n")
        await ref.set(4)
        seen = []

        def give_up(value: Any) -> Any:
            seen.append(value)
            return ABORT if value == 4 else 0

        result = await ref.transaction(give_up)
        self.assertEqual((result.committed, result.value, seen), (False, 4, [None, 4]))

        def fail(value: Any) -> Any:
            raise KeyError("no")

        with self.assertRaises(KeyError):
            await ref.transaction(fail)
        with self.assertRaises(errors.NotWholeError):
            await ref.transaction(lambda value: 1.5)

        async def later(value: Any) -> Any:
            await asyncio.sleep(0)
            return (value or 0) + 1

        self.assertEqual((await ref.transaction(later)).value, 5)

    async def test_limits_of_a_session(self) -> None:
        server = await self.server()
        db = await self.opened(server.url)
        armed = [db.ref(f"/m/{index}").on_disconnect().remove() for index in range(256)]
        await asyncio.wait_for(asyncio.gather(*armed), LONG)
        with self.assertRaises(errors.PlanFullError):
            await db.ref("/m/256").on_disconnect().remove()
        failed: List[Exception] = []
        stops = [
            db.ref(f"/m/{index}").on_value(lambda shown: None, failed.append)
            for index in range(257)
        ]
        await until(lambda: failed)
        self.assertIsInstance(failed[0], errors.ListensFullError)
        with self.assertRaises(errors.ListensFullError):
            await db.ref("/m/257").get()
        for stop in stops:
            stop()
        self.assertFalse((await db.ref("/m/257").get()).exists)

    async def test_refused_calls_raise_at_once(self) -> None:
        server = await self.server()
        db = await self.opened(server.url)
        for refused, value in [
            (errors.NotWholeError, 1.5),
            (errors.RangeError, 2**63),
            (errors.BadKeyError, {"a.b": 1}),
            (errors.TooLongError, "x" * 1_048_576),
            (errors.PlaceholderError, {".sv": "time"}),
        ]:
            with self.assertRaises(refused):
                db.ref("/a").set(value)
        with self.assertRaises(errors.OverlapError):
            db.ref("/a").update({"b": 1, "b/c": 2})
        with self.assertRaises(errors.BadKeyError):
            db.ref("/a.b")
        self.assertFalse((await db.ref("/").get()).exists)


class Losses(ShellTest):
    async def test_reconnects_after_the_server_was_killed(self) -> None:
        server = await self.server()
        db = await self.opened(server.url)
        told: List[bool] = []
        db.ref(".info/connected").on_value(lambda shown: told.append(shown.value))
        await db.ref("/a").set(1)
        shown: List[Snapshot] = []
        db.ref("/a").on_value(shown.append)
        await until(lambda: shown)
        await server.kill()
        await until(lambda: not db.is_connected)
        waiting = db.ref("/a").set(2)
        await asyncio.sleep(0.2)
        self.assertFalse(waiting.done())
        self.assertEqual(shown[-1].value, 1)
        await server.start()
        await asyncio.wait_for(waiting, LONG)
        await until(lambda: shown[-1].value == 2)
        self.assertEqual(told, [True, False, True])

    async def test_a_write_that_is_sent_twice_is_carried_out_once(self) -> None:
        server = await self.server()
        relay = await self.relay(server)
        db = await self.opened(relay.url)
        watching = await self.opened(server.url, "bob")
        values: List[Any] = []
        watching.ref("/n").on_value(lambda shown: values.append(shown.value))
        await until(lambda: values)
        cuts: List[bytes] = []

        def cuts_first_reply(data: bytes) -> bool:
            if not cuts and b'"m":"reply"' in data:
                cuts.append(data)
                return True
            return False

        relay.cuts_at = cuts_first_reply
        number = await asyncio.wait_for(db.ref("/n").set(7), LONG)
        self.assertEqual(len(cuts), 1)
        self.assertEqual(relay.connections, 2)
        await watching.ref("/end").set(1)
        self.assertEqual(values, [None, 7])
        self.assertLess(number, (await watching.ref("/n").get()).number)
        reply = cuts[0][cuts[0].index(b"{") :]
        self.assertIn(b'"done":%d,' % number, reply)

    async def test_increments_are_saved_and_replayed(self) -> None:
        server = await self.server()
        alice = await self.opened(server.url)
        bob = await self.opened(server.url, "bob")
        for db in (alice, bob):
            await db.ref("/count").on_disconnect().set(Increment(-1))
            await db.ref("/count").set(Increment(1))
        await alice.ref("/a/b").set(5)
        await alice.ref("/a").on_disconnect().set({"b": 1})
        await alice.ref("/a/b").on_disconnect().set(Increment(1))
        self.assertEqual((await bob.ref("/count").get()).value, 2)
        await alice.close()
        shown: List[Any] = []
        bob.ref("/").on_value(lambda value: shown.append(value.value))
        await until(lambda: shown and shown[-1] == {"a": {"b": 2}, "count": 1})
        await server.kill()
        await server.start()
        # the start ends the session that was open
        carol = await self.opened(server.url, "carol")
        self.assertEqual((await carol.ref("/").get()).value, {"a": {"b": 2}, "count": 0})

    async def test_an_increment_whose_reply_is_lost_counts_once(self) -> None:
        server = await self.server()
        relay = await self.relay(server)
        db = await self.opened(relay.url)
        cuts: List[bytes] = []

        def cuts_first_reply(data: bytes) -> bool:
            if not cuts and b'"m":"reply"' in data:
                cuts.append(data)
                return True
            return False

        relay.cuts_at = cuts_first_reply
        await asyncio.wait_for(db.ref("/n").set(Increment(1)), LONG)
        self.assertEqual(len(cuts), 1)
        self.assertEqual((await db.ref("/n").get()).value, 1)
        await server.kill()
        await server.start()
        bob = await self.opened(server.url, "bob")
        self.assertEqual((await bob.ref("/n").get()).value, 1)

    async def test_offline_writes_go_out_in_order(self) -> None:
        server = await self.server()
        db = self.database(server.url)
        await db.open()
        self.addAsyncCleanup(db.close)
        db.go_offline()
        with self.assertRaises(errors.OfflineError):
            db.ref("/a").on_disconnect().set(1)
        waiting = [db.ref("/a").set(value) for value in range(50)]
        waiting.append(db.ref("/").update({"b": 1, "c/d": 2}))
        counted = db.ref("/b").transaction(lambda value: (value or 0) + 10)
        await asyncio.sleep(0.2)
        self.assertFalse(any(future.done() for future in waiting))
        await db.go_online()
        numbers = await asyncio.wait_for(asyncio.gather(*waiting), LONG)
        self.assertEqual(numbers, sorted(numbers))
        self.assertEqual(len(set(numbers)), 51)
        self.assertEqual((await asyncio.wait_for(counted, LONG)).value, 11)
        value = (await db.ref("/").get()).value
        self.assertEqual(value, {"a": 49, "b": 11, "c": {"d": 2}})

    async def test_a_listener_misses_nothing_while_it_is_cut_50_times(self) -> None:
        server = await self.server()
        relay = await self.relay(server)
        writer = await self.opened(server.url)
        reader = await self.opened(relay.url, "bob")
        seen: List[Snapshot] = []
        reader.ref("/log").on_value(seen.append)
        truth = {}

        async def write() -> None:
            for index in range(200):
                number = await writer.ref(f"/log/{index:03}").set(index)
                truth[number] = index
                await asyncio.sleep(0)

        async def cut() -> None:
            for _ in range(50):
                relay.cut()
                await until(lambda: not reader.is_connected)
                await until(lambda: reader.is_connected)

        await asyncio.wait_for(asyncio.gather(write(), cut()), 4 * LONG)
        self.assertGreaterEqual(relay.connections, 51)
        await until(lambda: seen[-1].value is not None and len(seen[-1].value) == 200)
        numbers = [shown.number for shown in seen]
        self.assertEqual(numbers, sorted(numbers))
        for shown in seen:
            wanted = {f"{i:03}": i for number, i in truth.items() if number <= shown.number}
            self.assertEqual(shown.value or {}, wanted)

    async def test_writes_while_the_connection_is_cut_stand_once_each(self) -> None:
        server = await self.server()
        relay = await self.relay(server)
        db = await self.opened(relay.url)

        async def cut() -> None:
            for turn in range(15):
                await until(lambda: db.is_connected)
                await asyncio.sleep(0.02 * turn)
                relay.cut()

        async def count() -> List[int]:
            ref = db.ref("/n")
            return [(await ref.transaction(lambda n: (n or 0) + 1)).value for _ in range(10)]

        counting = asyncio.gather(count(), count(), count(), cut())
        *counted, _ = await asyncio.wait_for(counting, 4 * LONG)
        self.assertEqual(sorted(sum(counted, [])), list(range(1, 31)))
        self.assertEqual((await db.ref("/n").get()).value, 30)


class Examples(ShellTest):
    async def test_two_clients_and_one_that_is_killed(self) -> None:
        server = await self.server()
        db = await self.opened(server.url, "watch")
        seen: List[Any] = []
        db.ref("/presence").on_value(lambda shown: seen.append(shown.value))
        processes = []
        for name in ("alice", "bob"):
            process = await asyncio.create_subprocess_exec(
                sys.executable,
                str(PACKAGE.parent.parent / "examples" / "client.py"),
                name,
                server.url[5:-1],
                stdout=asyncio.subprocess.PIPE,
                env={**os.environ, "XDG_STATE_HOME": str(self.folder)},
            )
            processes.append(process)
            self.addCleanup(_end, process)
            await until(lambda: seen and name in (seen[-1] or {}))
        self.assertEqual(seen[-1], {"alice": True, "bob": True})
        while (await db.ref("/visits").get()).value != 2:
            await asyncio.sleep(0.05)
        processes[1].kill()
        await processes[1].wait()
        await until(lambda: seen[-1] == {"alice": True})
        assert processes[0].stdout is not None
        lines = []
        while len(lines) < 4 or lines[-1] != b'/presence {"alice": true}\n':
            lines.append(await asyncio.wait_for(processes[0].stdout.readline(), LONG))
        self.assertIn(b"visits 1\n", lines)
        self.assertIn(b'/presence {"alice": true, "bob": true}\n', lines)


class Sessions(ShellTest):
    async def test_an_action_fires_when_its_process_is_killed(self) -> None:
        server = await self.server()
        db = await self.opened(server.url)
        program = (
            "import asyncio, sys\n"
            "from presence_client import SERVER_TIMESTAMP, connect\n"
            "async def main():\n"
            "    async with connect(sys.argv[1], 'bob', storage=sys.argv[2]) as db:\n"
            "        await db.until_connected()\n"
            "        await db.ref('/on/bob').on_disconnect().remove()\n"
            "        await db.ref('/last/bob').on_disconnect().set(SERVER_TIMESTAMP)\n"
            "        await db.ref('/on/bob').set(True)\n"
            "        await asyncio.sleep(1000)\n"
            "asyncio.run(main())\n"
        )
        process = await asyncio.create_subprocess_exec(
            sys.executable, "-c", program, server.url, str(self.folder / "bob"), cwd=PACKAGE
        )
        self.addCleanup(_end, process)
        here: List[Any] = []
        last: List[Any] = []
        db.ref("/on/bob").on_value(lambda shown: here.append(shown.value))
        db.ref("/last/bob").on_value(lambda shown: last.append(shown.value))
        await until(lambda: here and here[-1] is True)
        self.assertEqual(last, [None])
        process.kill()
        await process.wait()
        await until(lambda: here[-1] is None)
        await until(lambda: last[-1] is not None)
        self.assertGreater(last[-1], 1_600_000_000_000)

    async def test_actions_are_cancelled(self) -> None:
        server = await self.server()
        alice = await self.opened(server.url)
        bob = await self.opened(server.url, "bob")
        ref = alice.ref("/u")
        await ref.on_disconnect().set({"a": 1, "b": 2})
        await ref.child("a").on_disconnect().cancel()
        await ref.set({"a": 9, "c": 3})
        seen: List[Any] = []
        bob.ref("/u").on_value(lambda shown: seen.append(shown.value))
        await until(lambda: seen)
        alice.go_offline()
        await until(lambda: seen[-1] == {"a": 9, "b": 2})

    async def test_four_clients_count_to_400(self) -> None:
        server = await self.server()
        names = ["alice", "bob", "carol", "dave"]
        clients = [await self.opened(server.url, name) for name in names]

        async def count(db: Database) -> int:
            tries = 0

            def one_more(value: Any) -> Any:
                nonlocal tries
                tries += 1
                return (value or 0) + 1

            done = 0
            while done < 100:
                try:
                    await db.ref("/visits").transaction(one_more)
                except errors.TooManyTriesError:
                    continue
                done += 1
            return tries

        tries = await asyncio.wait_for(asyncio.gather(*map(count, clients)), 8 * LONG)
        self.assertEqual((await clients[0].ref("/visits").get()).value, 400)
        self.assertGreaterEqual(sum(tries), 400)

    async def test_two_clients_with_one_id(self) -> None:
        server = await self.server()
        relay = await self.relay(server)
        first = await self.opened(relay.url)
        faults: List[Exception] = []
        first.on_fault(faults.append)
        values = first.ref("/a").values()
        await asyncio.wait_for(values.__anext__(), LONG)
        second = await self.opened(server.url)
        self.assertEqual((first.incarnation, second.incarnation), (1, 2))
        await until(lambda: faults)
        self.assertIsInstance(faults[0], errors.SupersededError)
        with self.assertRaises(errors.SupersededError):
            first.ref("/a").set(1)
        with self.assertRaises(errors.SupersededError):
            await values.__anext__()
        await asyncio.sleep(1.0)
        self.assertEqual(relay.connections, 1)
        self.assertTrue(second.is_connected)
        self.assertEqual(len(faults), 1)
        # The first takes over again only where its program says so.
        await first.go_online()
        await asyncio.wait_for(first.until_connected(), LONG)
        self.assertEqual(first.incarnation, 3)
        await until(lambda: not second.is_connected)
        await first.ref("/a").set(2)
        with self.assertRaises(errors.SupersededError):
            second.ref("/a").set(3)

    async def test_what_waits_is_told_that_it_is_superseded(self) -> None:
        server = await self.server()
        relay = await self.relay(server)
        first = await self.opened(relay.url)
        relay.cuts_at = lambda data: True
        relay.cut()
        await until(lambda: not first.is_connected)
        waiting = first.ref("/a").set(1)
        await self.opened(server.url)
        relay.cuts_at = lambda data: False
        with self.assertRaises(errors.SupersededError):
            await asyncio.wait_for(waiting, LONG)
        self.assertFalse(first.is_connected)

    async def test_a_lost_file_is_made_up_for(self) -> None:
        server = await self.server()
        file = self.folder / "lost"
        for _ in range(3):
            db = await self.opened(server.url, storage=file)
            await db.close()
        self.assertEqual(file.read_text(), "3\n")
        file.unlink()
        db = self.database(server.url, storage=file)
        await db.open()
        self.addAsyncCleanup(db.close)
        await asyncio.wait_for(db.ref("/a").set(1), LONG)
        self.assertEqual(db.incarnation, 4)
        self.assertEqual(file.read_text(), "4\n")

    async def test_an_old_number_that_was_handed_in(self) -> None:
        server = await self.server()
        db = await self.opened(server.url, incarnation=5)
        await db.close()
        late = self.database(server.url, incarnation=5)
        await late.open()
        self.addAsyncCleanup(late.close)
        connecting = asyncio.ensure_future(late.until_connected())
        with self.assertRaises(errors.OldFault) as found:
            await asyncio.wait_for(late.ref("/a").set(1), LONG)
        with self.assertRaises(errors.OldFault):
            await asyncio.wait_for(connecting, LONG)
        self.assertEqual(found.exception.last, (5, 1))
        with self.assertRaises(errors.OldFault):
            await late.until_connected()

    async def test_what_waits_is_told_that_it_is_closed(self) -> None:
        server = await self.server()
        db = await self.opened(server.url)
        seen = []

        async def watch() -> None:
            async for is_open in db.connected():
                seen.append(is_open)

        watching = asyncio.ensure_future(watch())
        await asyncio.sleep(0)
        db.go_offline()
        waiting = db.ref("/a").set(1)
        await db.close()
        with self.assertRaises(errors.ClosedError):
            await waiting
        await asyncio.wait_for(watching, LONG)
        self.assertEqual(seen, [True, False])
        with self.assertRaises(errors.ClosedError):
            db.ref("/a").set(1)
