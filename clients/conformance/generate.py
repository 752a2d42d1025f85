"""Scripts for `presence sim` by seeds: the same seed gives the same script.

    generate.py SEED    prints the script of a seed
"""

from __future__ import annotations

import json
import sys
from pathlib import Path as FilePath
from random import Random
from typing import Any, Callable, Dict, List, Optional, Tuple

import texts
from aim import ServerModel

sys.path.insert(0, str(FilePath(__file__).resolve().parent.parent / "python"))

import conformance_driver  # noqa: E402

NAMES = ["alice", "bob", "A", "a_1-Z", "c" * 128, "0"]

# How often each kind of step comes in a script of a mood.
MOODS: Dict[str, Dict[str, int]] = {
    "orderly": {"call": 30, "up": 35, "down": 35, "flush": 6, "online": 4, "tick": 1},
    "lossy": {
        "call": 25, "up": 22, "down": 22, "flush": 3, "skip_up": 4, "skip_down": 4, "lost": 5,
        "online": 8, "again": 8, "resend": 4, "drop": 3, "restart_client": 1, "restart_server": 1,
        "stop": 1, "refuse": 2, "tick": 1, "offline": 1, "beat": 1,
    },
    "chaos": {
        "call": 25, "up": 15, "down": 15, "flush": 2, "skip_up": 3, "skip_down": 3, "lost": 4,
        "online": 8, "again": 14, "resend": 5, "drop": 4, "restart_client": 3, "restart_server": 3,
        "stop": 2, "refuse": 4, "tick": 3, "offline": 3, "beat": 3, "odd": 3, "blind": 4,
    },
    "texts": {"call": 60, "up": 10, "down": 10, "flush": 5, "online": 3, "odd": 4},
}

# How often each call comes in a script of a taste.
TASTES: Dict[str, Dict[str, int]] = {
    "all": {
        "set": 20, "update": 10, "remove": 6, "transact": 8, "answer": 14, "abort": 2,
        "od-set": 6, "od-update": 4, "od-remove": 4, "od-cancel": 4, "listen": 12, "unlisten": 5,
    },
    "writes": {"set": 40, "update": 30, "remove": 10, "listen": 8, "transact": 4, "answer": 6},
    "listens": {"set": 20, "update": 8, "remove": 4, "listen": 30, "unlisten": 20},
    "transactions": {"transact": 25, "answer": 45, "abort": 4, "set": 12, "listen": 8, "remove": 2},
    "actions": {
        "od-set": 20, "od-update": 14, "od-remove": 8, "od-cancel": 14, "set": 10, "listen": 10,
    },
}

LONGEST_FLUSH = 60
MOST_NUMBER = 2**64 - 1  # of a script's line


def _pick(random: Random, weights: Dict[str, int]) -> str:
    return random.choices(list(weights), list(weights.values()))[0]


class _Client:
    # What the generator knows of one client: its core, and what wasn't delivered yet.
    def __init__(self) -> None:
        self.ups: List[int] = []
        self.downs: List[int] = []
        self.asks: List[int] = []


class Generator:
    """Makes the script of one seed."""

    def __init__(self, seed: int) -> None:
        self._random = Random(seed)
        names = self._random.sample(NAMES, self._random.choice([1, 2, 2, 2, 3]))
        self._clients = {name: _Client() for name in names}
        self._driver = conformance_driver.Driver()
        self._driver.answer({"do": "new", "clients": names})
        self._server = ServerModel()
        self._ups: List[Tuple[str, str]] = []
        self._downs: List[Tuple[str, str]] = []
        self._now = self._random.choice([0, 1000, 1_700_000_000_000])
        self._lines = ["clients " + " ".join(names)]
        self._mood = MOODS[self._random.choice(list(MOODS))]
        self._taste = TASTES[self._random.choice(["all", "all", *TASTES])]
        self._bad = self._random.choice([0.0, 0.05, 0.25])
        self._odd = self._random.choice([0.05, 0.2, 0.7])
        # A script of few paths has more clashes.
        self._paths = [texts.path(self._random, self._odd) for _ in range(self._random.randint(1, 6))]

    def script(self) -> List[str]:
        """The script's lines."""
        length = self._random.choice([15, 30, 60, 60, 120])
        self._open_all()
        kind = self._random.random()
        if kind < 0.05 and len(self._clients) > 1:
            self._overtake()
        elif kind < 0.07:
            self._many()
        while len(self._lines) < length:
            self._step()
        if self._random.random() < 0.5:
            self._flush()
        return self._lines

    # ---- events

    def _client(self) -> str:
        return self._random.choice(list(self._clients))

    def _take(self, name: str, answer: Dict[str, Any]) -> None:
        # What a client made: packets, and transactions that ask.
        for text in answer["ups"]:
            self._ups.append((name, text))
            self._clients[name].ups.append(len(self._ups))
        for note in answer["notes"]:
            words = note.split(" ")
            if words[0] == "ask":
                self._clients[name].asks.append(int(words[1]))

    def _call(self, name: str, words: str) -> None:
        self._lines.append(f"call {name} {words}")
        self._take(name, self._driver.answer({"do": "call", "id": name, "words": words}))

    def _sent(self, texts_of_downs: List[str]) -> None:
        for text in texts_of_downs:
            name = json.loads(text)["s"][0]
            self._downs.append((name, text))
            self._clients[name].downs.append(len(self._downs))

    def _up(self, packet: int, ending: str = "up") -> None:
        self._lines.append(f"{ending} {packet} {self._moment()}")
        if 1 <= packet <= len(self._ups):
            name, text = self._ups[packet - 1]
            if packet in self._clients[name].ups:
                self._clients[name].ups.remove(packet)
            self._sent(self._server.up(text, self._now, ending))

    def _down(self, packet: int) -> None:
        self._lines.append(f"down {packet}")
        if 1 <= packet <= len(self._downs):
            name, text = self._downs[packet - 1]
            if packet in self._clients[name].downs:
                self._clients[name].downs.remove(packet)
            self._take(name, self._driver.answer({"do": "down", "id": name, "text": text}))

    def _moment(self) -> int:
        chance = self._random.random()
        if chance < 0.9:
            self._now += self._random.choice([0, 1, 10, 500])
        elif chance < 0.96:
            self._now += 61_000
        elif chance < 0.97:
            self._now = self._random.choice([2**53 - 1, 2**53, 2**63, 2**64 - 1])
        else:
            self._now = max(0, self._now - 1000)
        self._now = min(self._now, MOST_NUMBER)
        return self._now

    # ---- steps

    def _step(self) -> None:
        name = self._client()
        kind = _pick(self._random, self._mood)
        getattr(self, "_do_" + kind)(name)

    def _do_call(self, name: str) -> None:
        if self._random.random() < self._bad:
            self._call(name, self._bad_call())
            return
        word = _pick(self._random, self._taste)
        if word in ("answer", "abort"):
            self._answer(name, word)
        elif word in ("set", "od-set"):
            deep = self._random.random() < 0.02
            value = texts.deep_value(self._random) if deep else self._value()
            self._call(name, f"{word} {self._path()} {value}")
        elif word in ("update", "od-update"):
            self._call(name, f"{word} {self._path()} {texts.update(self._random, self._odd)}")
        else:
            self._call(name, f"{word} {self._path()}")

    def _answer(self, name: str, word: str) -> None:
        asks = self._clients[name].asks
        if asks and self._random.random() < 0.9:
            request = asks.pop(self._random.randrange(len(asks)))
        else:
            request = self._random.choice([0, 1, 2, 3, 99, 2**64 - 1])
        self._call(name, f"{word} {request}" + (f" {self._value()}" if word == "answer" else ""))

    def _path(self) -> str:
        if self._random.random() < 0.85:
            return self._random.choice(self._paths)
        return texts.path(self._random, self._odd)

    def _value(self) -> str:
        return texts.value(self._random, self._random.choice([0, 1, 2, 3]), self._odd)

    def _bad_call(self) -> str:
        # A call that is refused, mostly.
        random = self._random
        word = random.choice(list(TASTES["all"]))
        path = texts.bad_path(random) if random.random() < 0.4 else self._path()
        if word in ("answer", "abort"):
            request = random.choice(["0", "1", "01", "2", "7", "18446744073709551615"])
            rest = "" if word == "abort" else " " + texts.bad_value(random)
            return f"{word} {request}{rest}"
        if word in ("set", "od-set"):
            return f"{word} {path} {texts.bad_value(random)}"
        if word in ("update", "od-update"):
            return f"{word} {path} {texts.update(random)}"
        return f"{word} {path}"

    def _do_up(self, name: str) -> None:
        if self._clients[name].ups:
            self._up(self._clients[name].ups[0])

    def _do_down(self, name: str) -> None:
        if self._clients[name].downs:
            self._down(self._clients[name].downs[0])

    def _do_skip_up(self, name: str) -> None:
        # A packet is lost, or comes late by an `again`.
        if self._clients[name].ups:
            self._clients[name].ups.pop(0)

    def _do_skip_down(self, name: str) -> None:
        if self._clients[name].downs:
            self._clients[name].downs.pop(0)

    def _do_again(self, name: str) -> None:
        if self._random.random() < 0.5 and self._ups:
            self._up(self._recent(len(self._ups)))
        elif self._downs:
            self._down(self._recent(len(self._downs)))

    def _recent(self, count: int) -> int:
        if self._random.random() < 0.6:
            return self._random.randint(max(1, count - 6), count)
        return self._random.randint(1, count)

    def _do_blind(self, name: str) -> None:
        packet = self._random.choice([0, len(self._ups) + 1, len(self._downs) + 1, 2**64 - 1])
        if self._random.random() < 0.5:
            self._down(packet)
        else:
            self._up(packet, self._random.choice(["up", "up-stop", "up-refuse"]))

    def _do_flush(self, name: str) -> None:
        self._flush()

    def _flush(self) -> None:
        # Packets are delivered in their order until there are none.
        for _ in range(LONGEST_FLUSH):
            waiting = [c for c in self._clients.values() if c.ups or c.downs]
            if not waiting:
                return
            client = self._random.choice(waiting)
            if client.ups and (not client.downs or self._random.random() < 0.5):
                self._up(client.ups[0])
            else:
                self._down(client.downs[0])

    def _ending(self, name: str, ending: str) -> None:
        ups = self._clients[name].ups
        if ups:
            self._up(ups[0], ending)

    def _do_stop(self, name: str) -> None:
        self._ending(name, "up-stop")
        if self._random.random() < 0.8:
            self._do_restart_server(name)

    def _do_refuse(self, name: str) -> None:
        self._ending(name, "up-refuse")

    def _do_lost(self, name: str) -> None:
        self._call(name, "lost")
        if self._random.random() < 0.7:
            self._call(name, "online")
            if self._random.random() < 0.7:
                # What was on its way is lost with the connection.
                self._clients[name].ups = self._clients[name].ups[-1:]
                self._clients[name].downs = []

    def _do_online(self, name: str) -> None:
        self._call(name, "online")

    def _do_offline(self, name: str) -> None:
        self._call(name, "offline")

    def _do_beat(self, name: str) -> None:
        self._call(name, "beat")

    def _do_resend(self, name: str) -> None:
        self._call(name, "resend")

    def _do_odd(self, name: str) -> None:
        # Calls of a client that isn't there, and other lines without an event.
        stranger = self._random.choice(["nobody", "z", "b" * 128])
        line = self._random.choice(
            [
                f"call {stranger} online",
                f"call {stranger} set {self._path()} {self._value()}",
                f"call {stranger} set {texts.bad_path(self._random)} 1",
                f"call {stranger} set /a {texts.bad_value(self._random)}",
                f"restart-client {stranger}",
                f"drop {stranger} {self._now}",
            ]
        )
        self._lines.append(line)

    def _do_drop(self, name: str) -> None:
        self._lines.append(f"drop {name} {self._moment()}")
        self._sent(self._server.lose(name, self._now))

    def _do_tick(self, name: str) -> None:
        self._lines.append(f"tick {self._moment()}")
        self._sent(self._server.tick(self._now))

    def _do_restart_client(self, name: str) -> None:
        self._lines.append(f"restart-client {name}")
        self._driver.answer({"do": "restart", "id": name})
        self._clients[name].asks = []
        if self._random.random() < 0.8:
            self._call(name, "online")

    def _do_restart_server(self, name: str) -> None:
        self._lines.append(f"restart-server {self._moment()}")
        self._server.restart(self._now)

    # ---- stretches

    def _open_all(self) -> None:
        for name in self._clients:
            chance = self._random.random()
            if chance < 0.6:
                self._call(name, "online")
                self._flush()
            elif chance < 0.8:
                self._call(name, "online")

    def _overtake(self) -> None:
        # Each try of a transaction is overtaken by another client, up to the 25th or nearly so.
        slow, fast = list(self._clients)[:2]
        for name in (slow, fast):
            self._call(name, "online")
        self._flush()
        path = self._path()
        if self._random.random() < 0.5:
            self._call(slow, f"listen {path}")
        self._call(slow, f"transact {path}")
        self._flush()
        for turn in range(self._random.choice([3, 23, 24, 25, 25, 26])):
            self._call(fast, f"set {path} {turn + 100}")
            if self._random.random() < 0.7:
                self._flush_of(fast)
                self._answer_last(slow)
            else:
                self._answer_last(slow)
                self._flush_of(fast)
            self._flush_of(slow)
            if self._random.random() < 0.05:
                self._call(slow, "lost")
                self._call(slow, "online")
                self._flush_of(slow)

    def _answer_last(self, name: str) -> None:
        asks = self._clients[name].asks
        if asks:
            self._call(name, f"answer {asks.pop()} {texts.scalar(self._random)}")

    def _flush_of(self, name: str) -> None:
        client = self._clients[name]
        for _ in range(LONGEST_FLUSH):
            if client.ups:
                self._up(client.ups[0])
            elif client.downs:
                self._down(client.downs[0])
            else:
                return

    def _many(self) -> None:
        # More listens or actions than a session may have.
        name = self._client()
        self._call(name, "online")
        self._flush()
        word = self._random.choice(["listen", "od-remove"])
        for index in range(258):
            self._call(name, f"{word} /m/{index}")
        for _ in range(12):
            self._flush_of(name)
        if self._random.random() < 0.5:
            self._call(name, "lost")
            self._call(name, "online")
            self._flush()


def script_of(seed: int) -> List[str]:
    """The script of the seed."""
    return Generator(seed).script()


if __name__ == "__main__":
    print("\n".join(script_of(int(sys.argv[1]))))
