"""Which start of its program a client is, kept in a file.

Each start of a client takes a greater number than all before it, and the number is on the disk
before anything of that start goes out. So no two starts speak under one number.
"""

from __future__ import annotations

import hashlib
import os
import re
import sys
from contextlib import contextmanager
from pathlib import Path
from typing import Iterator, Optional, Union

from .messages import MOST_NUMBER

_WHOLE = re.compile("[0-9]{1,16}")


def default_file(url: str, client: str) -> Path:
    """Where the number of this client of this server is kept, where a program names no file:
    below $XDG_STATE_HOME, or ~/.local/state."""
    state = os.environ.get("XDG_STATE_HOME") or os.path.join(os.path.expanduser("~"), ".local/state")
    server = hashlib.sha256(url.encode()).hexdigest()[:16]
    return Path(state) / "presence_client" / f"{client}@{server}"


class IncarnationFile:
    """The number of a client's last start. The folder of the file is made where there is none."""

    def __init__(self, file: Union[str, "os.PathLike[str]"]) -> None:
        self._file = Path(file)

    def last(self) -> int:
        """The number that is kept, 0 where there is no file. A file that holds anything else but a
        number is a ValueError, and is left as it is."""
        try:
            text = self._file.read_text(encoding="ascii", errors="replace").strip()
        except FileNotFoundError:
            return 0
        if not text:
            return 0
        if not _WHOLE.fullmatch(text) or int(text) > MOST_NUMBER:
            raise ValueError(f"{self._file} holds no incarnation of a client")
        return int(text)

    def take(self, above: int = 0) -> int:
        """The next number, which is kept from now on: greater than the one that is kept and than
        `above`."""
        self._file.parent.mkdir(parents=True, exist_ok=True)
        with self._locked():
            number = max(self.last(), above) + 1
            if number > MOST_NUMBER:
                raise ValueError("no incarnation is left")
            self._write(number)
        return number

    def _write(self, number: int) -> None:
        # Either the old number or the new one is there, whenever the machine stops.
        fresh = self._file.with_name(f"{self._file.name}.{os.getpid()}.new")
        with open(fresh, "w", encoding="ascii") as out:
            out.write(f"{number}\n")
            out.flush()
            os.fsync(out.fileno())
        os.replace(fresh, self._file)
        self._sync_folder()

    def _sync_folder(self) -> None:
        if sys.platform == "win32":
            return
        folder = os.open(self._file.parent, os.O_RDONLY)
        try:
            os.fsync(folder)
        finally:
            os.close(folder)

    @contextmanager
    def _locked(self) -> Iterator[None]:
        # Two programs that start at once take two numbers.
        if sys.platform == "win32":
            yield
            return
        import fcntl

        with open(self._file.with_name(self._file.name + ".lock"), "w", encoding="ascii") as lock:
            fcntl.flock(lock, fcntl.LOCK_EX)
            yield


def file_of(
    url: str, client: str, storage: Optional[Union[str, "os.PathLike[str]"]]
) -> IncarnationFile:
    """The file that a program names, or the one that is taken where it names none."""
    return IncarnationFile(default_file(url, client) if storage is None else storage)
