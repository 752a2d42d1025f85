"""Plays a script through `presence sim` and hands the same calls and packets to a library's core."""

from __future__ import annotations

import json
import subprocess
from dataclasses import dataclass
from typing import Any, Dict, List, Optional

# Two lines after each line of a script mark where its output ends: a packet that isn't there, and
# a call whose path is refused. They change nothing. A line of a script prints at most one of
# `nosuch` and `refused 5`, and then nothing else, so the pair is always found.
_MARK = ["down 18446744073709551615", "call x remove ."]
_MARKED = ["nosuch", "refused 5"]


_NOTHING: Dict[str, Any] = {"ups": [], "notes": [], "refused": None}


class SimFault(Exception):
    """The program didn't play the script."""


@dataclass
class Event:
    """A line of a script, and what `presence sim` printed of it."""

    line: str
    printed: List[str]

    def of(self, word: str) -> List[str]:
        """The rests of the printed lines that begin with the word."""
        return [text.split(" ", 2)[2] for text in self.printed if text.startswith(word + " ")]

    @property
    def refused(self) -> Optional[int]:
        """The number by which a call is refused."""
        for text in self.printed:
            if text.startswith("refused "):
                return int(text[8:])
        return None

    @property
    def is_nowhere(self) -> bool:
        """Whether there is no such packet or client."""
        return self.printed == ["nosuch"]


@dataclass
class Played:
    """What a script made."""

    clients: List[str]
    events: List[Event]
    views: List[str]


def sim(program: str, script: List[str]) -> Played:
    """What the program prints of the script, line by line."""
    lines = [script[0]]
    for line in script[1:]:
        lines += [line, *_MARK]
    text = "".join(line + "\n" for line in lines)
    done = subprocess.run([program, "sim"], input=text.encode(), capture_output=True)
    if done.returncode != 0:
        tail = done.stdout.decode()[-300:] + done.stderr.decode()[-300:]
        raise SimFault(f"status {done.returncode}: {tail}")
    printed = done.stdout.decode().split("\n")[:-1]
    events = []
    at = 0
    for line in script[1:]:
        start = at
        while printed[at : at + 2] != _MARKED:
            at += 1
            if at >= len(printed):
                raise SimFault(f"no end of the output of {line!r}")
        events.append(Event(line, printed[start:at]))
        at += 2
    views = [text[5:] for text in printed[at:] if text.startswith("view ")]
    return Played(script[0].split(" ")[1:], events, views)


class Driver:
    """The process that holds a library's core."""

    def __init__(self, command: List[str]) -> None:
        self._command = command
        self._process: Optional[subprocess.Popen] = None

    def ask(self, **request: Any) -> Dict[str, Any]:
        """The answer to a request."""
        if self._process is None:
            self._process = subprocess.Popen(
                self._command, stdin=subprocess.PIPE, stdout=subprocess.PIPE, text=True,
                encoding="utf-8",
            )
        assert self._process.stdin is not None and self._process.stdout is not None
        try:
            self._process.stdin.write(json.dumps(request) + "\n")
            self._process.stdin.flush()
            line = self._process.stdout.readline()
        except BrokenPipeError:
            line = ""
        if not line:
            self.close()
            return {"broken": "the driver ended"}
        try:
            answer = json.loads(line)
        except ValueError:
            answer = None
        return answer if isinstance(answer, dict) else {"broken": line}

    def close(self) -> None:
        """Ends the process."""
        if self._process is not None:
            process, self._process = self._process, None
            assert process.stdin is not None and process.stdout is not None
            try:
                process.stdin.close()
            except BrokenPipeError:
                pass
            process.stdout.close()
            process.wait()


@dataclass
class Difference:
    """Where a library's core did something else than the proved client."""

    number: int  # of the script's line, from 1 on; 0 for the views at the end
    line: str
    expected: Any
    found: Any

    def __str__(self) -> str:
        where = f"line {self.number}: {self.line}" if self.number else "the views at the end"
        return f"{where}\n  presence sim: {self.expected}\n  the library:  {self.found}"


def _request(event: Event, clients: List[str], downs: List[str]) -> Optional[Dict[str, Any]]:
    # What the event asks of a client, None where it asks nothing.
    if event.is_nowhere:
        return None
    word, _, rest = event.line.partition(" ")
    if word == "call":
        name, _, words = rest.partition(" ")
        return {"do": "call", "id": name, "words": words} if name in clients else None
    if word == "down":
        text = downs[int(rest) - 1]
        return {"do": "down", "id": json.loads(text)["s"][0], "text": text}
    if word == "restart-client":
        return {"do": "restart", "id": rest}
    return None


def _expected(event: Event) -> Dict[str, Any]:
    return {"ups": event.of("up"), "notes": event.of("note"), "refused": event.refused}


def compare(played: Played, driver: Driver) -> Optional[Difference]:
    """The first difference between what was played and the library's core."""
    found = driver.ask(do="new", clients=played.clients)
    if found != {}:
        return Difference(1, "clients", {}, found)
    downs: List[str] = []
    for number, event in enumerate(played.events, 2):
        request = _request(event, played.clients, downs)
        if request is not None:
            # A restart may be answered by an empty object.
            expected, found = _expected(event), driver.ask(**request) or _NOTHING
            if found != expected:
                return Difference(number, event.line, expected, found)
        downs += event.of("down")
    found = driver.ask(do="views")
    if found != {"views": played.views}:
        return Difference(0, "", {"views": played.views}, found)
    return None
