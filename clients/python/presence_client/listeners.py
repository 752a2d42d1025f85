"""Who listens to which path."""

from __future__ import annotations

from typing import Callable, Dict, List

from .reference import Snapshot
from .values import Path


class Listener:
    """One who listens: `tell` takes snapshots, and `fail` takes what ended the listen."""

    def __init__(
        self, tell: Callable[[Snapshot], None], fail: Callable[[Exception], None]
    ) -> None:
        self.tell = tell
        self.fail = fail
        self.was_told = False


class Listeners:
    """The listeners of all paths."""

    def __init__(self) -> None:
        self._of: Dict[Path, List[Listener]] = {}
        # The request that made each path listened to.
        self._requests: Dict[Path, int] = {}

    def paths(self) -> List[Path]:
        """The paths that have listeners."""
        return list(self._of)

    def add(self, path: Path, listener: Listener) -> bool:
        """One listener more. Whether it is the path's first."""
        is_first = path not in self._of
        self._of.setdefault(path, []).append(listener)
        return is_first

    def remove(self, path: Path, listener: Listener) -> bool:
        """One listener less. Whether it was the path's last."""
        listeners = self._of.get(path, [])
        if listener not in listeners:
            return False
        listeners.remove(listener)
        if listeners:
            return False
        del self._of[path]
        self._requests.pop(path, None)
        return True

    def asked(self, request: int, path: Path) -> None:
        """The request made the path listened to."""
        self._requests[path] = request

    def tell(self, snapshot: Snapshot, path: Path) -> None:
        """Tells the path's listeners of a snapshot."""
        for listener in list(self._of.get(path, ())):
            listener.was_told = True
            listener.tell(snapshot)

    def denied(self, request: int, error: Exception) -> None:
        """The server denied the listen: its listeners learn it, and are none any more. A path that
        was listened to again since then has another request."""
        paths = [path for path, made_by in self._requests.items() if made_by == request]
        for path in paths:
            del self._requests[path]
            for listener in self._of.pop(path, []):
                listener.fail(error)

    def forget_requests(self) -> None:
        """The requests were those of another incarnation."""
        self._requests.clear()

    def end(self, error: Exception) -> List[Listener]:
        """Tells all listeners that nothing more comes, and answers them."""
        listeners = [listener for of_path in self._of.values() for listener in of_path]
        for listener in listeners:
            listener.fail(error)
        return listeners
