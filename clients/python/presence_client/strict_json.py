"""JSON as the server reads and prints it.

Texts are read as RFC 8259 says, with nothing more: no NaN, no surrogate without its pair, no text
that nests more than 127 arrays and objects. Whole numbers of 64 bits are read exactly. Every other
number is read as NOT_WHOLE, and one that is too large for a float is refused. Of a name that stands
twice in an object the last value counts. What is printed has no spaces and its names in byte order.
"""

from __future__ import annotations

import json
import re
from math import isinf
from typing import Any, Dict, List, Tuple

MOST_LEVELS = 127
_LEAST_WHOLE = -(2**63)
_MOST_WHOLE = 2**64 - 1
_LONGEST_WHOLE = 20  # characters of a whole number of 64 bits, its sign too
_BRACKETS = re.compile(r'"[^"\\]*(?:\\.[^"\\]*)*"|[\[\]{}]', re.DOTALL)


class NotJson(ValueError):
    """The text is no JSON."""


class _NotWhole:
    """A number that is no whole number of 64 bits."""

    def __repr__(self) -> str:
        return "NOT_WHOLE"


NOT_WHOLE = _NotWhole()


def _float(text: str) -> _NotWhole:
    if isinf(float(text)):
        raise NotJson("a number is too large")
    return NOT_WHOLE


def _whole(text: str) -> Any:
    if not text.isascii():
        raise NotJson("a digit is none of JSON's")
    if text == "-0":
        return NOT_WHOLE
    if len(text) <= _LONGEST_WHOLE:
        number = int(text)
        if _LEAST_WHOLE <= number <= _MOST_WHOLE:
            return number
    return _float(text)


def _constant(text: str) -> Any:
    raise NotJson(f"{text} is no JSON")


def _check_text(text: str) -> None:
    try:
        text.encode()
    except UnicodeEncodeError:
        raise NotJson("a surrogate stands without its pair") from None


def _checked_members(pairs: List[Tuple[str, Any]]) -> Dict[str, Any]:
    for name, value in pairs:
        _check_text(name)
        _check_texts(value)
    return dict(pairs)


def _check_texts(value: Any) -> None:
    # The members of an object were checked when it was read.
    if isinstance(value, str):
        _check_text(value)
    elif isinstance(value, list):
        for item in value:
            _check_texts(item)


_DECODER = json.JSONDecoder(parse_float=_float, parse_int=_whole, parse_constant=_constant)
_CHECKING_DECODER = json.JSONDecoder(
    parse_float=_float,
    parse_int=_whole,
    parse_constant=_constant,
    object_pairs_hook=_checked_members,
)


def _levels(text: str) -> int:
    """The most arrays and objects that stand in one another."""
    open_now = most = 0
    for match in _BRACKETS.finditer(text):
        first = match.group()[0]
        if first in "[{":
            open_now += 1
            most = max(most, open_now)
        elif first in "]}":
            open_now -= 1
    return most


def read(text: str) -> Any:
    """The JSON value of a text: None, bool, int, NOT_WHOLE, str, list or dict. Raises NotJson."""
    if text.count("[") + text.count("{") > MOST_LEVELS and _levels(text) > MOST_LEVELS:
        raise NotJson("too many arrays and objects stand in one another")
    has_surrogates = "\\ud" in text or "\\uD" in text
    decoder = _CHECKING_DECODER if has_surrogates else _DECODER
    try:
        value = decoder.decode(text)
    except (ValueError, RecursionError) as error:
        raise NotJson(str(error)) from None
    if has_surrogates:
        _check_texts(value)
    return value


_ENCODER = json.JSONEncoder(ensure_ascii=False, sort_keys=True, separators=(",", ":"))


def text_of(value: Any) -> str:
    """The text of a JSON value. Python orders texts by code points, which is the order of their
    UTF-8 bytes."""
    return _ENCODER.encode(value)
