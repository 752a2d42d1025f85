"""Random texts for scripts: keys, paths and JSON, good ones and bad ones."""

from __future__ import annotations

import json
from random import Random
from typing import Any, Dict, List

# In byte order of UTF-8 the first of these comes before the second, and in that of UTF-16 after it.
ODD_KEYS = ["\uffee", "\U0001f600", "\ue000", "\U00010000", "é", "ß", "a b", "\u0080", "\u00a0"]
PLAIN_KEYS = ["a", "b", "c", "n", "on", "last", "A", "0", "1", "2", "10", "-", "_", "a-b", "~", " "]
BAD_KEYS = ["a.b", "$a", "#", "[", "]x", "x\x7f", "\x01", "k" * 769, "é" * 385, "."]
EDGE_KEYS = ["k" * 768, "é" * 384]
TREE_PATHS = ["/", "/a", "/a/b", "/a/b/c", "/a/b/d", "/b", "/b/a", "/n", "/on", "/p/x", "/p", "/a-b"]
NUMBERS = [0, 1, 2, 3, -1, 7, 255, 2**31, 2**53, 2**53 + 1, -(2**53), 2**63 - 1, -(2**63), 10**15]
TEXTS = ["", "x", "hello", 'a"b', "a\\b", "tab\there", "line\nfeed", "\x00", "\x1f\x7f", "\b\f\r"]
ODD_TEXTS = ["é", "😀", "\uffff", "\u2028", "</script>", "null", " ", "\u0085", "日本", "\ud7ff\ue000"]
BAD_SCALARS = ["-0", "0.0", "1.0", "1e2", "1E+2", "-1.5", "1e-400", "18446744073709551616"]
BAD_SCALARS += ["9223372036854775808", "18446744073709551615", "-9223372036854775809", "9" * 60]
BAD_SCALARS += ['{".sv":"time"}', '{".sv":"timestamp","a":1}', '{".sv":null}', '{".sv":{"a":1}}']
BAD_SCALARS += ['{".sv":{"increment":1.5}}', '{".sv":{"increment":9223372036854775808}}', '{".sv":{"increment":"x"}}']
BAD_SCALARS += ['{".sv":{"increment":1.5},"a":1}', '{".sv":{"increment":1,"a":1}}', '{".sv":{}}']
NO_JSON = ["", "{", "[1,]", '{"a":1,}', "{'a':1}", "nul", "truE", "01", "+1", "1.", ".5", "1e", "-"]
NO_JSON += ["NaN", "Infinity", "-Infinity", '"\\ud800"', '"\\udc00x"', '"\\ud83d\\u0041"', '"\\x41"']
NO_JSON += ['"\t"', '"a', "1 2", "[1 2]", '{"a" 1}', '{1:2}', "1e400", "-1e999", "9" * 400, "\ufeff1"]
NO_JSON += ['"\\u12"', '"\\u12g4"', "[" * 128 + "]" * 128, "\x0c1", "\u00a01", "tru", "[", "]", '"\x01"']
NO_JSON += ['{"a":1}}', '{"a":{"b":"\\ud800"},"a":1}', '{"a":' * 128 + "1" + "}" * 128, '1"a"', "1,2"]
SPACES = ["", "", "", "", " ", "\t", "  ", "\r"]


def key(random: Random, odd: float = 0.15) -> str:
    """A key that is one."""
    if random.random() < odd:
        return random.choice(EDGE_KEYS) if random.random() < 0.05 else random.choice(ODD_KEYS)
    return random.choice(PLAIN_KEYS)


def _word(text: str) -> str:
    # A path in a script holds no space.
    return text.replace(" ", "+")


def path(random: Random, odd: float = 0.15) -> str:
    """A path's text that is one, mostly a short one."""
    chance = random.random()
    if chance < 0.7:
        text = random.choice(TREE_PATHS)
    elif chance < 0.97:
        text = "/" + "/".join(_word(key(random, odd)) for _ in range(random.randint(0, 4)))
    else:
        text = "/" + "/".join("d" * random.randint(1, 2) for _ in range(random.choice([31, 32])))
    chance = random.random()
    if chance < 0.05:
        text = text[1:]
    elif chance < 0.1:
        text = text.replace("/", "//", 1) + "/"
    return text


def bad_path(random: Random) -> str:
    """A path's text that is none."""
    if random.random() < 0.3:
        return "/" + "/".join(["d"] * 33)
    keys = [_word(key(random)) for _ in range(random.randint(0, 2))]
    keys.insert(random.randint(0, len(keys)), _word(random.choice(BAD_KEYS).replace("/", "")))
    if random.random() < 0.1:
        keys += ["d"] * 40
    return "/".join(keys)


def _string(random: Random, text: str) -> str:
    # A JSON string, its characters escaped in one way or another.
    made = []
    for letter in text:
        chance = random.random()
        if chance < 0.85:
            made.append(json.dumps(letter, ensure_ascii=False)[1:-1])
        elif letter == "/":
            made.append("\\/")
        else:
            units = letter.encode("utf-16-be").hex()
            spelled = [units[at : at + 4] for at in range(0, len(units), 4)]
            upper = random.random() < 0.5
            made.extend("\\u" + (unit.upper() if upper else unit) for unit in spelled)
    return '"' + "".join(made) + '"'


def _space(random: Random) -> str:
    return random.choice(SPACES)


def _text_of(random: Random) -> str:
    return random.choice(TEXTS if random.random() < 0.6 else ODD_TEXTS)


def scalar(random: Random) -> str:
    """JSON of a scalar, or a placeholder."""
    chance = random.random()
    if chance < 0.35:
        return str(random.choice(NUMBERS[:6]))
    if chance < 0.55:
        return str(random.choice(NUMBERS))
    if chance < 0.7:
        return random.choice(["true", "false"])
    if chance < 0.92:
        return _string(random, _text_of(random))
    if random.random() < 0.5:
        return f'{{".sv":{{"increment":{random.choice(NUMBERS)}}}}}'
    return '{".sv":"timestamp"}' if random.random() < 0.8 else '{ "\\u002esv" : "timestamp" }'


def _member(random: Random, name: str, value: str) -> str:
    return f"{_space(random)}{_string(random, name)}{_space(random)}:{value}"


def value(random: Random, levels: int = 3, odd: float = 0.15) -> str:
    """JSON of a draft."""
    chance = random.random()
    if levels == 0 or chance < 0.55:
        made = scalar(random)
    elif chance < 0.63:
        made = random.choice(["null", "{}", "[]", '{"a":null}', "[null]", '{"a":{"b":{}}}'])
    elif chance < 0.73:
        items = [value(random, levels - 1, odd) for _ in range(random.choice([1, 2, 3, 3, 12]))]
        made = "[" + ",".join(items) + "]"
    else:
        names = [key(random, odd) for _ in range(random.randint(1, 4))]
        members = [_member(random, name, value(random, levels - 1, odd)) for name in names]
        made = "{" + ",".join(members) + _space(random) + "}"
    return _space(random) + made + _space(random)


def deep_value(random: Random) -> str:
    """JSON that nests about as deep as may be, or deeper."""
    levels = random.choice([28, 30, 31, 32, 33, 34, 126, 127])
    leaf = random.choice(["1", "null", "{}", '"x"', '{".sv":"timestamp"}', '{".sv":1}', "1.5"])
    if random.random() < 0.3:
        return "[" * levels + leaf + "]" * levels
    return '{"d":' * levels + leaf + "}" * levels


def bad_value(random: Random) -> str:
    """JSON that is no draft, or no JSON."""
    chance = random.random()
    if chance < 0.35:
        return random.choice(NO_JSON)
    bad = random.choice(BAD_SCALARS)
    if chance < 0.6:
        return bad
    members: Dict[str, str] = {key(random): value(random, 1) for _ in range(random.randint(0, 3))}
    if random.random() < 0.5:
        members[key(random)] = bad
    else:
        members[random.choice(BAD_KEYS + [""])] = random.choice(["null", "1"])
    made = [_member(random, name, member) for name, member in members.items()]
    random.shuffle(made)
    return "{" + ",".join(made) + "}"


def update(random: Random, odd: float = 0.15) -> str:
    """JSON of an update: mostly one that is."""
    chance = random.random()
    if chance < 0.04:
        return random.choice(["{}", "[]", "1", "null", '"a"', "{", "[{}]"])
    if chance < 0.06:
        many = random.choice([256, 257])
        return "{" + ",".join(f'"m{index}":{index}' for index in range(many)) + "}"
    names: List[str] = []
    for _ in range(random.randint(1, 4)):
        name = path(random, odd) if random.random() < 0.5 else key(random, odd)
        names.append(bad_path(random) if random.random() < 0.03 else name)
    if random.random() < 0.6:
        names = _apart(names)
    members = []
    for name in names:
        member = bad_value(random) if random.random() < 0.03 else value(random, 2, odd)
        members.append(_member(random, name, member))
    return "{" + ",".join(members) + "}"


def _apart(names: List[str]) -> List[str]:
    # Names of which none is at or above another.
    kept: List[Any] = []
    for name in names:
        keys = [piece for piece in name.split("/") if piece]
        if all(keys[: len(other)] != other[: len(keys)] for _, other in kept):
            kept.append((name, keys))
    return [name for name, _ in kept]
