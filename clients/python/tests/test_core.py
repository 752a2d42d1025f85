"""The core, without sockets: what is sent and noted in whole stories, and what is refused."""

from __future__ import annotations

import json
import unittest
from typing import Any, List

from presence_client import errors, strict_json
from presence_client.core import MOST_TRIES, Client
from presence_client.messages import (
    MOST_NUMBER,
    NotAMessage,
    Session,
    longest_bytes,
    read_down,
    set_op,
    write_text,
)
from presence_client.strict_json import NOT_WHOLE, NotJson
from presence_client.values import (
    SERVER_TIMESTAMP,
    Increment,
    check_places,
    from_python,
    parse_path,
    path_text,
    read_draft,
    read_places,
    read_tree,
    tree_json,
)

A = ("a",)
N = ("n",)


def receive(client: Client, word: str, session: List[Any], **fields: Any) -> List[str]:
    """The client's notices of a message."""
    client.receive(read_down(json.dumps({"m": word, "s": session, **fields})))
    return [str(notice) for notice in client.take_notices()]


def sent(client: Client) -> List[Any]:
    """What the client has to send."""
    return [json.loads(text) for text in client.take_sends()]


def online(name: str, ops: int = 0) -> Client:
    """A client that is Online in its first session."""
    client = Client(name, 1)
    client.go_online()
    receive(client, "welcome", [name, 1, 1], z=1, ops=ops)
    client.take_sends()
    return client


class Stories(unittest.TestCase):
    """The worked stories of clients, with the numbers that they have there."""

    def test_lost_reply_resent_write(self) -> None:
        alice = online("alice")
        self.assertEqual(alice.set(A, 1), 1)
        op = {"op": "set", "path": "/a", "value": 1}
        self.assertEqual(
            sent(alice), [{"m": "op", "n": 1, "op": op, "q": 1, "s": ["alice", 1, 1]}]
        )
        alice.lost()
        self.assertEqual([str(n) for n in alice.take_notices()], ["connected false"])
        alice.go_online()
        self.assertEqual(sent(alice), [{"m": "hello", "s": ["alice", 1, 2]}])
        notes = receive(alice, "welcome", ["alice", 1, 2], z=4, ops=1)
        self.assertEqual(notes, ["connected true"])
        self.assertEqual(
            sent(alice), [{"m": "op", "n": 1, "op": op, "q": 1, "s": ["alice", 1, 2]}]
        )
        notes = receive(alice, "reply", ["alice", 1, 2], r=1, z=5, q=1, n=1, done=2, out="wrote")
        self.assertEqual(notes, ["done 1 2"])

    def test_client_restart_ignores_old_welcome(self) -> None:
        alice = Client("alice", 2)
        alice.go_online()
        self.assertEqual(receive(alice, "welcome", ["alice", 1, 1], z=1, ops=0), [])
        self.assertFalse(alice.connected)
        notes = receive(alice, "welcome", ["alice", 2, 1], z=3, ops=0)
        self.assertEqual(notes, ["connected true"])
        self.assertEqual(receive(alice, "welcome", ["alice", 1, 1], z=1, ops=0), [])
        self.assertEqual(receive(alice, "fault", ["alice", 1, 2], code=2, last=[2, 1]), [])
        self.assertTrue(alice.connected)

    def test_transactions_race(self) -> None:
        bob = online("bob")
        bob.listen(N)
        s = ["bob", 1, 1]
        self.assertEqual(
            receive(bob, "snap", s, r=1, z=5, q=1, path="/n", value=0), ["value /n 5 0"]
        )
        self.assertEqual(bob.transact(N), 2)
        self.assertEqual([str(n) for n in bob.take_notices()], ["ask 2 1 0"])
        bob.answer(2, 1)
        bob.take_sends()
        self.assertEqual(receive(bob, "push", s, r=2, z=6, values=[["/n", 1]]), ["value /n 6 1"])
        notes = receive(bob, "reply", s, r=3, z=7, q=2, n=1, done=7, out={"stale": 1})
        self.assertEqual(notes, ["ask 2 2 1"])
        bob.answer(2, 2)
        op = {"op": "tx", "path": "/n", "expect": 1, "value": 2}
        self.assertEqual(sent(bob), [{"m": "op", "n": 2, "op": op, "q": 3, "s": s}])
        self.assertEqual(receive(bob, "push", s, r=4, z=8, values=[["/n", 2]]), ["value /n 8 2"])
        notes = receive(bob, "reply", s, r=5, z=8, q=3, n=2, done=8, out="wrote")
        self.assertEqual(notes, ["done 2 8"])

    def test_the_25th_stale_reply_ends_a_transaction(self) -> None:
        bob = online("bob")
        bob.transact(N)
        self.assertEqual([str(n) for n in bob.take_notices()], ["ask 1 1 null"])
        for turn in range(1, MOST_TRIES + 1):
            bob.answer(1, turn)
            fields = {"r": turn, "z": turn + 1, "q": turn, "n": turn, "done": turn + 1}
            notes = receive(bob, "reply", ["bob", 1, 1], **fields, out={"stale": 100 + turn})
            is_last = turn == MOST_TRIES
            self.assertEqual(notes, ["toomany 1"] if is_last else [f"ask 1 {turn + 1} {100 + turn}"])
        with self.assertRaises(errors.NoSuchRequestError):
            bob.answer(1, 1)

    def test_abort(self) -> None:
        bob = online("bob")
        bob.transact(N)
        bob.take_notices()
        bob.abort(1)
        self.assertEqual([str(n) for n in bob.take_notices()], ["aborted 1"])
        self.assertEqual(bob.take_sends(), [])
        with self.assertRaises(errors.NoSuchRequestError):
            bob.answer(99, 1)

    def test_queue_before_online(self) -> None:
        alice = Client("alice", 1)
        self.assertEqual(alice.set(A, 1), 1)
        self.assertEqual(alice.set(A, 2), 2)
        with self.assertRaises(errors.OfflineError):
            alice.on_disconnect_set(A, 1)
        self.assertEqual(alice.take_sends(), [])
        alice.go_online()
        alice.take_sends()
        receive(alice, "welcome", ["alice", 1, 1], z=1, ops=0)
        first = sent(alice)
        self.assertEqual([(m["n"], m["q"], m["op"]["value"]) for m in first], [(1, 1, 1), (2, 2, 2)])
        alice.resend()
        self.assertEqual(sent(alice), first)
        alice.go_offline()
        self.assertEqual(sent(alice), [{"m": "bye", "q": 3, "s": ["alice", 1, 1]}])
        self.assertEqual([str(n) for n in alice.take_notices()], ["connected false"])
        self.assertEqual(receive(alice, "gone", ["alice", 1, 1], r=1, z=4, why="bye"), [])

    def test_view_across_a_loss(self) -> None:
        bob = online("bob")
        bob.listen(A)
        receive(bob, "snap", ["bob", 1, 1], r=1, z=3, q=1, path="/a", value=None)
        receive(bob, "push", ["bob", 1, 1], r=2, z=4, values=[["/a", 1]])
        self.assertEqual(bob.view(A), (4, 1))
        bob.lost()
        self.assertEqual(bob.view(A), (4, 1))
        self.assertFalse(bob.is_live(A))
        bob.go_online()
        bob.take_sends()
        receive(bob, "welcome", ["bob", 1, 2], z=7, ops=0)
        self.assertEqual(sent(bob), [{"m": "on", "path": "/a", "q": 1, "s": ["bob", 1, 2]}])
        receive(bob, "snap", ["bob", 1, 2], r=1, z=8, q=1, path="/a", value=2)
        self.assertEqual(bob.view(A), (8, 2))
        bob.unlisten(A)
        self.assertEqual(sent(bob), [{"m": "off", "path": "/a", "q": 2, "s": ["bob", 1, 2]}])
        self.assertIsNone(bob.view(A))

    def test_actions_are_lost_with_their_session(self) -> None:
        alice = online("alice")
        self.assertEqual(alice.on_disconnect_update((), [(("last",), SERVER_TIMESTAMP)]), 1)
        values = {"last": {".sv": "timestamp"}}
        op = {"op": "update", "path": "/", "values": values}
        self.assertEqual(sent(alice), [{"m": "left", "op": op, "q": 1, "s": ["alice", 1, 1]}])
        alice.on_disconnect_cancel(A)
        self.assertEqual(receive(alice, "armed", ["alice", 1, 1], r=1, z=2, q=1), ["armed 1"])
        notes = receive(alice, "fault", ["alice", 1, 1], code=3)
        self.assertEqual(notes, ["connected false", "lost 2", "faulted 3"])


class Receiving(unittest.TestCase):
    def test_passes_over_what_is_late_or_early(self) -> None:
        bob = online("bob")
        bob.listen(A)
        snap = {"r": 1, "z": 3, "q": 1, "path": "/a", "value": 1}
        later = read_down(
            json.dumps({"m": "push", "s": ["bob", 1, 1], "r": 2, "z": 4, "values": [["/a", 2]]})
        )
        self.assertTrue(bob.misses(later))
        bob.receive(later)
        self.assertEqual(bob.take_notices(), [])
        self.assertEqual(receive(bob, "snap", ["bob", 1, 1], **snap), ["value /a 3 1"])
        self.assertEqual(receive(bob, "snap", ["bob", 1, 1], **snap), [])
        self.assertFalse(bob.misses(later))

    def test_an_answer_that_fits_nothing_ends_the_session(self) -> None:
        alice = online("alice")
        alice.set(A, 1)
        notes = receive(alice, "armed", ["alice", 1, 1], r=1, z=2, q=1)
        self.assertEqual(notes, ["connected false", "faulted 1"])
        self.assertIsNone(alice.session)

    def test_welcomes_that_cannot_be(self) -> None:
        alice = online("alice", ops=5)
        alice.set(A, 1)
        alice.lost()
        alice.take_notices()
        for attempt, ops in [(2, 4), (3, 7)]:
            alice.go_online()
            notes = receive(alice, "welcome", ["alice", 1, attempt], z=9, ops=ops)
            self.assertEqual(notes, ["faulted 1"])
        alice.go_online()
        notes = receive(alice, "welcome", ["alice", 1, 4], z=9, ops=6)
        self.assertEqual(notes, ["connected true"])

    def test_a_denied_listen_drops_its_path(self) -> None:
        alice = online("alice")
        alice.listen(A)
        notes = receive(alice, "denied", ["alice", 1, 1], r=1, z=2, q=1, why=2)
        self.assertEqual(notes, ["denied 1 2"])
        alice.lost()
        alice.go_online()
        alice.take_sends()
        receive(alice, "welcome", ["alice", 1, 2], z=3, ops=0)
        self.assertEqual(alice.take_sends(), [])

    def test_renewed_before_any_session(self) -> None:
        alice = Client("alice", 1)
        alice.set(A, 1)
        alice.go_online()
        receive(alice, "fault", ["alice", 1, 1], code=2, last=[7, 3])
        alice.renew(8)
        alice.go_online()
        self.assertEqual(sent(alice)[-1], {"m": "hello", "s": ["alice", 8, 1]})
        receive(alice, "welcome", ["alice", 8, 1], z=9, ops=4)
        self.assertEqual(sent(alice)[0]["n"], 5)
        alice.lost()
        with self.assertRaises(ValueError):
            alice.renew(9)


class Refusals(unittest.TestCase):
    def test_order(self) -> None:
        deep = tuple("d" * 32)
        alice = Client("alice", 1)
        many = [((str(index),), 1) for index in range(257)]
        with self.assertRaises(errors.TooDeepError):
            alice.set(deep, {"x": 1})
        with self.assertRaises(errors.ManyPathsError):
            alice.update(deep, many)
        with self.assertRaises(errors.TooDeepError):
            alice.update(deep, [(A, 1), (A, 2)])
        with self.assertRaises(errors.OverlapError):
            alice.update((), [(("a", "b"), 1), (A, None)])
        with self.assertRaises(errors.OfflineError):
            alice.on_disconnect_update((), many)
        self.assertEqual(alice.set(deep, None), 1)

    def test_spent_comes_before_the_write(self) -> None:
        alice = online("alice", ops=MOST_NUMBER)
        with self.assertRaises(errors.SpentError):
            alice.set(tuple("d" * 32), {"x": 1})
        self.assertEqual(alice.transact(A), 1)
        with self.assertRaises(errors.NoSuchRequestError):
            alice.answer(2, 1)
        with self.assertRaises(errors.SpentError):
            alice.answer(1, 1)
        self.assertEqual(alice.listen(A), 2)

    def test_too_long(self) -> None:
        op = set_op(A, "é" * 10)
        longest = longest_bytes(Session("alice", 1, 1), op)
        text = write_text(Session("alice", 1, MOST_NUMBER), MOST_NUMBER, MOST_NUMBER, op)
        self.assertEqual(longest, len(text.encode()))
        alice = Client("alice", 1, longest)
        self.assertEqual(alice.set(A, "é" * 10), 1)
        with self.assertRaises(errors.TooLongError):
            alice.set(A, "é" * 11)
        self.assertEqual(alice.set(A, 1), 2)

    def test_numbers_and_names(self) -> None:
        kinds = [errors.OfflineError, errors.NoSuchRequestError, errors.SpentError]
        self.assertEqual([kind.number for kind in kinds], [2, 3, 4])
        self.assertEqual([kind.name for kind in kinds], ["Offline", "NoSuchRequest", "Spent"])
        self.assertEqual((errors.OverlapError.number, errors.OverlapError.write_number), (5, 9))
        faults = [errors.server_fault(code) for code in range(1, 9)]
        self.assertEqual([fault.number for fault in faults], list(range(1, 9)))
        names = "bad old session order full busy spent down".split()
        self.assertEqual([fault.name for fault in faults], names)


class Values(unittest.TestCase):
    def refused(self, number: int, value: Any, read: Any = read_tree) -> None:
        with self.assertRaises(errors.WriteError) as found:
            read(value)
        self.assertEqual(found.exception.write_number, number)

    def nested(self, keys: int, leaf: Any) -> Any:
        for _ in range(keys):
            leaf = {"d": leaf}
        return leaf

    def test_paths(self) -> None:
        self.assertEqual(path_text(parse_path("a//b/")), "/a/b")
        self.assertEqual(path_text(parse_path("")), "/")
        self.refused(4, "/a.b", parse_path)
        self.refused(5, "/d" * 33, parse_path)
        self.refused(4, "/d" * 33 + "/$", parse_path)
        self.assertEqual(len(parse_path("/d" * 32)), 32)

    def test_keys(self) -> None:
        self.assertEqual(parse_path("k" * 768), ("k" * 768,))
        self.refused(3, "k" * 769, parse_path)
        self.refused(3, "é" * 385, parse_path)
        self.refused(3, "." * 769, parse_path)
        for letter in [*".$#[]", *map(chr, range(32)), "\x7f"]:
            self.refused(4, {letter: None})
        self.refused(2, {"": 1})

    def test_numbers(self) -> None:
        for text in ["9223372036854775807", "-9223372036854775808"]:
            self.assertEqual(read_tree(strict_json.read(text)), int(text))
        self.refused(7, strict_json.read("9223372036854775808"))
        self.refused(7, strict_json.read("18446744073709551615"))
        for text in ["1.0", "1e2", "-0", "18446744073709551616", "-9223372036854775809", "9" * 300]:
            self.assertIs(strict_json.read(text), NOT_WHOLE)
            self.refused(6, strict_json.read(text))
        self.refused(6, from_python(1.0))
        self.refused(6, from_python(2**64))

    def test_nothing_is_stored_of_nulls_and_empty_objects(self) -> None:
        value = {"v": [1, None, 2], "a": {"b": {}}, "c": []}
        self.assertEqual(read_tree(value), {"v": {"0": 1, "2": 2}})
        self.assertIsNone(read_tree({"a": {"b": None}}))

    def test_depth(self) -> None:
        self.assertEqual(read_tree(self.nested(32, 1)), self.nested(32, 1))
        self.refused(5, self.nested(33, 1))
        self.assertIsNone(read_tree(self.nested(40, None)))
        self.refused(5, self.nested(33, {".sv": "x"}), read_draft)

    def test_first_fault_in_byte_order(self) -> None:
        self.refused(6, {"b": {"": 1}, "a": NOT_WHOLE})
        self.refused(2, {"b": NOT_WHOLE, "": 1})
        self.refused(7, [0] * 2 + [NOT_WHOLE] + [0] * 7 + [2**63])

    def test_placeholders(self) -> None:
        self.assertIs(read_draft({".sv": "timestamp"}), SERVER_TIMESTAMP)
        self.refused(8, {".sv": "timestamp", "a": 1}, read_draft)
        self.refused(8, {".sv": None}, read_draft)
        self.refused(4, {".sv": "timestamp"}, read_tree)
        self.assertEqual(tree_json({"a": SERVER_TIMESTAMP}), {"a": {".sv": "timestamp"}})

    def test_increments(self) -> None:
        self.assertEqual(read_draft({".sv": {"increment": -2}}), Increment(-2))
        self.assertEqual(read_draft(Increment(3)), Increment(3))
        self.refused(6, {".sv": {"increment": NOT_WHOLE}}, read_draft)
        self.refused(7, {".sv": {"increment": 2**63}}, read_draft)
        self.refused(8, {".sv": {"increment": "x"}}, read_draft)
        self.refused(8, {".sv": {"increment": True}}, read_draft)
        self.refused(8, {".sv": {"increment": 1, "a": 1}}, read_draft)
        self.refused(8, {".sv": {"increment": NOT_WHOLE}, "a": 1}, read_draft)
        self.assertEqual(tree_json({"a": Increment(1)}), {"a": {".sv": {"increment": 1}}})

    def test_places(self) -> None:
        places = read_places({"a-b": 1, "a/b": 2})
        self.assertEqual(check_places((), places), [(("a", "b"), 2), (("a-b",), 1)])
        self.refused(9, {"a": 1, "/a": 2}, lambda value: check_places((), read_places(value)))
        self.refused(9, {"": 1, "a": 2}, lambda value: check_places((), read_places(value)))

    def test_what_a_program_hands_in(self) -> None:
        self.assertEqual(from_python({"a": (1, "x")}), {"a": [1, "x"]})
        for value in [object(), {1: 2}, {"a": {1}}, b"x"]:
            with self.assertRaises(TypeError):
                from_python(value)
        with self.assertRaises(ValueError):
            from_python("\ud800")
        endless: List[Any] = []
        endless.append(endless)
        with self.assertRaises(errors.TooDeepError):
            from_python(endless)


class Json(unittest.TestCase):
    def test_printed(self) -> None:
        value = {"\U0001f600": 1, "\uffee": 2, "a": [True, None], "é": "\x00\x1f\x7f\"\\/\b\f\n\r\t"}
        text = '{"a":[true,null],"é":"\\u0000\\u001f\x7f\\"\\\\/\\b\\f\\n\\r\\t","\uffee":2,"\U0001f600":1}'
        self.assertEqual(strict_json.text_of(value), text)

    def test_no_json(self) -> None:
        texts = ["", "nul", "NaN", "Infinity", "-Infinity", "01", "1.", "[1,]", "1e400", "9" * 400]
        texts += ['"\\ud800"', '"\\udc00"', '["\\ud83d\\u0041"]', '{"\\ud800":1}', '"\t"', "1 2"]
        texts += ["[" * 128 + "]" * 128, '{"a":{"b":"\\ud800"},"a":1}']
        for text in texts:
            with self.assertRaises(NotJson, msg=text):
                strict_json.read(text)

    def test_json(self) -> None:
        self.assertEqual(strict_json.read(' {"a":1,"a":"\\ud83d\\ude00"}\r\n'), {"a": "😀"})
        self.assertEqual(strict_json.read('"' + "[" * 200 + '"'), "[" * 200)
        strict_json.read("[" * 127 + "]" * 127)

    def test_messages_that_are_none(self) -> None:
        head = '"s":["a",1,1],"r":1,"z":1,"q":1'
        for text in [
            "{", "[]", "{}", '{"m":"hi"}', '{"m":"hello","s":["a",1,1]}',
            '{"m":"welcome","s":["a!",1,1],"z":1,"ops":0}',
            '{"m":"welcome","s":["a",0,1],"z":1,"ops":0}',
            '{"m":"welcome","s":["a",1,1,1],"z":1,"ops":0}',
            '{"m":"welcome","s":["a",1,1],"z":true,"ops":0}',
            '{"m":"welcome","s":["a",1,1],"z":1,"ops":9007199254740992}',
            '{"m":"reply",%s,"n":1,"done":1,"out":"stale"}' % head,
            '{"m":"reply",%s,"n":1,"done":1,"out":{"stale":1.5}}' % head,
            '{"m":"snap",%s,"path":"/a.b","value":1}' % head,
            '{"m":"snap",%s,"path":"/a","value":{".sv":"timestamp"}}' % head,
            '{"m":"push",%s,"values":[["/b",1],["/a",1]]}' % head,
            '{"m":"denied",%s,"why":3}' % head,
            '{"m":"gone",%s,"why":"tired"}' % head,
            '{"m":"fault","code":1}',
            '{"m":"fault","s":null,"code":9}',
            '{"m":"fault","s":null,"code":2}',
        ]:  # fmt: skip
            with self.assertRaises(NotAMessage, msg=text):
                read_down(text)
        read_down('{"m":"fault","s":null,"code":1,"last":5}')
        read_down('{"m":"push",%s,"values":[],"more":1}' % head)


if __name__ == "__main__":
    unittest.main()
