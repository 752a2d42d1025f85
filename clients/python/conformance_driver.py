"""Drives the core of this library by JSON lines, for clients/conformance.

Each line of standard input is a request, and each gets one line of answer:

    {"do":"new","clients":["alice","bob"]}           all forgotten, incarnation 1 each: {}
    {"do":"call","id":"alice","words":"set /a 1"}    {"ups":[..],"notes":[..],"refused":N or null}
    {"do":"down","id":"alice","text":"{..}"}         the same
    {"do":"restart","id":"alice"}                    the next incarnation, all else forgotten
    {"do":"views"}                                   {"views":["alice /a 3 1",..]}
"""

from __future__ import annotations

import json
import re
import sys
from pathlib import Path as FilePath
from typing import Any, Callable, Dict, List, Tuple

sys.path.insert(0, str(FilePath(__file__).resolve().parent))

from presence_client import strict_json  # noqa: E402
from presence_client.core import Client  # noqa: E402
from presence_client.errors import CallError, NotJsonError  # noqa: E402
from presence_client.messages import read_down  # noqa: E402
from presence_client.values import (  # noqa: E402
    Draft,
    Path,
    Place,
    parse_path,
    path_text,
    read_draft,
    read_places,
    tree_json,
)

_WHOLE = re.compile(r"\+?[0-9]+")


class BadLine(Exception):
    """The words are no call."""


def _halves(text: str) -> Tuple[str, str]:
    first, space, rest = text.partition(" ")
    if not space:
        raise BadLine(text)
    return first, rest


def _whole(text: str) -> int:
    if not _WHOLE.fullmatch(text) or int(text) >= 2**64:
        raise BadLine(text)
    return int(text)


def _json(text: str) -> Any:
    try:
        return strict_json.read(text)
    except strict_json.NotJson:
        raise NotJsonError() from None


def _placed(given: str) -> Tuple[Path, Draft]:
    path, text = _halves(given)
    return parse_path(path), read_draft(_json(text))


def _all_placed(given: str) -> Tuple[Path, List[Place]]:
    path, text = _halves(given)
    parsed = parse_path(path)
    value = _json(text)
    if not isinstance(value, dict):
        raise NotJsonError("an update is no object")
    return parsed, read_places(value)


def _answer(client: Client, given: str) -> None:
    number, text = _halves(given)
    request = _whole(number)
    client.answer(request, read_draft(_json(text)))


_BARE: Dict[str, Callable[[Client], None]] = {
    "online": Client.go_online,
    "offline": Client.go_offline,
    "lost": Client.lost,
    "beat": Client.beat,
    "resend": Client.resend,
}

_GIVEN: Dict[str, Callable[[Client, str], Any]] = {
    "set": lambda client, given: client.set(*_placed(given)),
    "od-set": lambda client, given: client.on_disconnect_set(*_placed(given)),
    "update": lambda client, given: client.update(*_all_placed(given)),
    "od-update": lambda client, given: client.on_disconnect_update(*_all_placed(given)),
    "answer": _answer,
    "abort": lambda client, given: client.abort(_whole(given)),
    "remove": lambda client, given: client.remove(parse_path(given)),
    "transact": lambda client, given: client.transact(parse_path(given)),
    "od-remove": lambda client, given: client.on_disconnect_remove(parse_path(given)),
    "od-cancel": lambda client, given: client.on_disconnect_cancel(parse_path(given)),
    "listen": lambda client, given: client.listen(parse_path(given)),
    "unlisten": lambda client, given: client.unlisten(parse_path(given)),
}


def call(client: Client, words: str) -> None:
    """Makes the call of a script's words."""
    word, space, given = words.partition(" ")
    if space and word in _GIVEN:
        _GIVEN[word](client, given)
    elif not space and word in _BARE:
        _BARE[word](client)
    else:
        raise BadLine(words)


class Driver:
    """The clients of a script."""

    def __init__(self) -> None:
        self._clients: Dict[str, Client] = {}
        self._incarnations: Dict[str, int] = {}

    def answer(self, request: Dict[str, Any]) -> Dict[str, Any]:
        """The answer to one request."""
        asked = request["do"]
        if asked == "new":
            self._incarnations = {name: 1 for name in request["clients"]}
            self._clients = {name: Client(name, 1) for name in request["clients"]}
            return {}
        if asked == "views":
            return {"views": self._views()}
        name = request["id"]
        if asked == "restart":
            self._incarnations[name] += 1
            self._clients[name] = Client(name, self._incarnations[name])
            return {}
        return self._step(self._clients[name], request)

    def _step(self, client: Client, request: Dict[str, Any]) -> Dict[str, Any]:
        refused = None
        try:
            if request["do"] == "call":
                call(client, request["words"])
            else:
                client.receive(read_down(request["text"]))
        except CallError as error:
            refused = error.number
        notes = [str(notice) for notice in client.take_notices()]
        return {"ups": client.take_sends(), "notes": notes, "refused": refused}

    def _views(self) -> List[str]:
        lines = []
        for name in sorted(self._clients):
            for path, number, value in self._clients[name].views():
                text = strict_json.text_of(tree_json(value))
                lines.append(f"{name} {path_text(path)} {number} {text}")
        return lines


def main() -> None:
    """Answers each line of standard input."""
    driver = Driver()
    sys.stdin.reconfigure(encoding="utf-8", newline="\n")  # type: ignore[union-attr]
    sys.stdout.reconfigure(encoding="utf-8", newline="\n")  # type: ignore[union-attr]
    for line in sys.stdin:
        answer = driver.answer(json.loads(line))
        print(json.dumps(answer), flush=True)


if __name__ == "__main__":
    main()
