"""Cuts a script down to a short one that still shows a difference."""

from __future__ import annotations

from dataclasses import dataclass
from typing import Callable, Dict, List, Optional, Tuple

from play import Played, SimFault

Find = Callable[[List[str]], Optional[Played]]


@dataclass
class _Packet:
    """A packet by the line that made it, and which of that line's it is."""

    line: int
    place: int


class _Script:
    """A script whose lines name packets by the lines that made them."""

    def __init__(self, script: List[str], played: Played) -> None:
        self.lines = script
        self._made: Dict[str, List[_Packet]] = {"up": [], "down": []}
        self.counts: List[Dict[str, int]] = [{"up": 0, "down": 0}]
        for number, event in enumerate(played.events, 1):
            for word, packets in self._made.items():
                count = len(event.of(word))
                packets.extend(_Packet(number, place) for place in range(count))
            self.counts.append({word: len(event.of(word)) for word in self._made})

    def packet_of(self, number: int) -> Optional[Tuple[str, Optional[_Packet]]]:
        """The packet that a line names: its list, and None for one that isn't there."""
        words = self.lines[number].split(" ")
        kind = {"up": "up", "up-stop": "up", "up-refuse": "up", "down": "down"}.get(words[0])
        if kind is None:
            return None
        at = int(words[1])
        packets = self._made[kind]
        return kind, packets[at - 1] if 1 <= at <= len(packets) else None

    def without(self, dropped: range) -> List[str]:
        """The script without these lines and those that name their packets, renumbered as if each
        line left made as many packets as before."""
        kept: List[str] = []
        before: Dict[str, int] = {"up": 0, "down": 0}
        first_of: Dict[str, Dict[int, int]] = {"up": {}, "down": {}}
        gone = set(dropped)
        for number, line in enumerate(self.lines):
            if number in gone:
                continue
            named = self.packet_of(number)
            if named is not None and named[1] is not None:
                kind, packet = named
                if packet.line not in first_of[kind]:
                    gone.add(number)
                    continue
                words = line.split(" ")
                words[1] = str(first_of[kind][packet.line] + packet.place + 1)
                line = " ".join(words)
            kept.append(line)
            for word, count in self.counts[number].items():
                first_of[word][number] = before[word]
                before[word] += count
        return kept


def _candidates(script: List[str], played: Played, size: int) -> List[List[str]]:
    numbered = _Script(script, played)
    made = []
    for start in range(len(script) - size, 0, -size):
        made.append(numbered.without(range(start, start + size)))
        made.append(script[:start] + script[start + size :])
    return made


def shorten(script: List[str], find: Find, tries: int = 2000) -> List[str]:
    """The shortest script found that still differs. `find` gives what a script played where it
    differs, and None where it doesn't."""
    played = find(script)
    if played is None:
        return script
    size = max(1, (len(script) - 1) // 2)
    while size >= 1 and tries > 0:
        for candidate in _candidates(script, played, size):
            tries -= 1
            shorter = _find(find, candidate)
            if shorter is not None:
                script, played = candidate, shorter
                size = min(size, max(1, len(script) - 1))
                break
            if tries <= 0:
                break
        else:
            size //= 2
    return script


def _find(find: Find, script: List[str]) -> Optional[Played]:
    try:
        return find(script)
    except SimFault:
        return None
