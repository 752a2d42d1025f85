"""Runs all tests. The last line is `N passed, M failed`."""

from __future__ import annotations

import sys
import unittest
from pathlib import Path


def main() -> int:
    """Runs them. Answers the exit status."""
    top = Path(__file__).resolve().parent.parent
    tests = unittest.defaultTestLoader.discover(str(top / "tests"), top_level_dir=str(top))
    result = unittest.TextTestRunner(stream=sys.stdout, verbosity=2).run(tests)
    # A test with subtests may fail more than once, and one that was skipped didn't pass.
    named = {test.id().split(" ")[0] for test, _ in result.failures + result.errors}
    failed = len(named) + len(result.unexpectedSuccesses)
    passed = max(result.testsRun - failed - len(result.skipped), 0)
    failed += len(result.skipped)
    print(f"{passed} passed, {failed} failed", flush=True)
    return 0 if failed == 0 and passed > 0 else 1


if __name__ == "__main__":
    sys.exit(main())
