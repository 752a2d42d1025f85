"""Compares the cores of the client libraries with the proved client.

    run.py PROGRAM [--library NAME].. [--seeds FIRST LAST] [--jobs N] [--no-regressions]

PROGRAM is the server's program; its `presence sim` plays each script. A difference is cut down to a
short script, which is printed. The last line is `N passed, M failed`.
"""

from __future__ import annotations

import argparse
import multiprocessing
import shutil
import sys
from pathlib import Path as FilePath
from typing import Dict, List, Optional, Tuple

import generate
import play
import shorten

_HERE = FilePath(__file__).resolve().parent
_CLIENTS = _HERE.parent
_REGRESSIONS = _HERE / "regressions"

# How a library's driver is started, by the library's name.
_PYTHON = _CLIENTS / "python" / "conformance_driver.py"
_JS = _CLIENTS / "js" / "conformance-driver.mjs"

_CHUNK = 10
_TOLD = 100  # scripts between two lines on standard error
_MOST_SHOWN = 5


def libraries() -> Dict[str, List[str]]:
    """The libraries that are there, with the commands of their drivers."""
    found = {}
    if _PYTHON.exists():
        found["python"] = [sys.executable, str(_PYTHON)]
    if _JS.exists():
        found["js"] = [shutil.which("node") or "node", str(_JS)]
    return found


Result = Tuple[str, str, Optional[str]]  # the script's name, the library, what differs


class _Worker:
    """Plays scripts, and compares each library with them."""

    def __init__(self, program: str, commands: Dict[str, List[str]]) -> None:
        self._program = program
        self._drivers = {name: play.Driver(command) for name, command in commands.items()}

    def run(self, name: str, script: List[str]) -> List[Result]:
        """What each library does with the script."""
        try:
            played = play.sim(self._program, script)
        except play.SimFault as fault:
            return [(name, library, f"presence sim: {fault}") for library in self._drivers]
        made: List[Result] = []
        for library, driver in self._drivers.items():
            difference = play.compare(played, driver)
            about = None if difference is None else self._about(script, driver, difference)
            made.append((name, library, about))
        return made

    def _about(self, script: List[str], driver: play.Driver, found: play.Difference) -> str:
        def differs(lines: List[str]) -> Optional[play.Played]:
            played = play.sim(self._program, lines)
            return None if play.compare(played, driver) is None else played

        short = shorten.shorten(script, differs)
        played = play.sim(self._program, short)
        difference = play.compare(played, driver) or found
        lines = "\n".join("    " + line for line in short)
        return f"{difference}\n  the shortest script:\n{lines}"


_worker: Optional[_Worker] = None


def _begin(program: str, commands: Dict[str, List[str]]) -> None:
    global _worker
    _worker = _Worker(program, commands)


def _run_seeds(seeds: range) -> List[Result]:
    assert _worker is not None
    results = []
    for seed in seeds:
        results += _worker.run(f"seed {seed}", generate.script_of(seed))
    return results


def regressions() -> List[Tuple[str, List[str]]]:
    """The kept scripts, by their names."""
    found = []
    for file in sorted(_REGRESSIONS.glob("*.script")):
        text = file.read_bytes().decode()
        found.append((file.name, text.split("\n")[:-1]))
    return found


class _Tally:
    """Counts what passed, and prints what failed."""

    def __init__(self) -> None:
        self.passed = self.failed = 0

    def add(self, results: List[Result]) -> None:
        """One more script's results."""
        for name, library, about in results:
            if about is None:
                self.passed += 1
                continue
            self.failed += 1
            if self.failed <= _MOST_SHOWN:
                print(f"{library} differs in {name}, {about}", flush=True)


def _arguments() -> argparse.Namespace:
    parser = argparse.ArgumentParser(description=__doc__)
    parser.add_argument("program")
    parser.add_argument("--library", action="append")
    parser.add_argument("--seeds", nargs=2, type=int, default=[1, 1000])
    parser.add_argument("--jobs", type=int, default=2)
    parser.add_argument("--no-regressions", action="store_true")
    return parser.parse_args()


def main() -> int:
    """Runs the comparison. Answers the exit status."""
    given = _arguments()
    commands = libraries()
    if given.library:
        commands = {name: commands[name] for name in given.library}
    program = shutil.which(given.program) or given.program
    tally = _Tally()
    if not given.no_regressions:
        worker = _Worker(program, commands)
        for name, script in regressions():
            tally.add(worker.run(name, script))
    first, last = given.seeds
    chunks = [range(at, min(at + _CHUNK, last + 1)) for at in range(first, last + 1, _CHUNK)]
    with multiprocessing.Pool(given.jobs, _begin, (program, commands)) as pool:
        for done, results in enumerate(pool.imap(_run_seeds, chunks), 1):
            tally.add(results)
            if done * _CHUNK % _TOLD == 0:
                print(f"conformance: {done * _CHUNK} scripts", file=sys.stderr, flush=True)
    print(f"conformance: seeds {first} to {last}, for each of: {', '.join(commands) or 'none'}")
    print(f"{tally.passed} passed, {tally.failed} failed")
    return 0 if tally.failed == 0 and tally.passed > 0 else 1


if __name__ == "__main__":
    sys.exit(main())
