#!/usr/bin/python3
"""Tries the desk with real TLS, a real board and real Chromium.

    desk/tests/try_desk.py [--program PATH] [--quick] [--pictures FOLDER]

It needs Debian's python3-pytest, python3-jsonschema and what the desk needs, openssl, and for its pages chromium,
chromium-driver and python3-selenium. With --quick the tests run that need neither Chromium nor minutes, in about
fifteen seconds; all of them take less than three minutes. With --pictures a picture of each page is kept. The last line
is `N cases, M failed`; the status is 1 where one failed. What is not there is said, and with --quick the status is 77.
"""
import argparse
import os
import sys
from pathlib import Path
from typing import Any

TESTS = Path(__file__).resolve().parent
LEFT_OUT = 77
QUICK = ("test_settings.py", "test_commands.py", "test_parts.py", "test_people.py")


class Counted:
    """Counts the cases of pytest."""

    def __init__(self) -> None:
        self.cases = self.failed = 0

    def pytest_runtest_logreport(self, report: Any) -> None:
        """Takes what became of a part of a test."""
        self.cases += report.when == "call"
        self.failed += bool(report.failed)


def main() -> int:
    """Runs the tests, and counts them."""
    words = argparse.ArgumentParser(description="Tries the desk.")
    words.add_argument("--program", type=Path, help="the board's program; ACDM, or the one that is built, without it")
    words.add_argument("--quick", action="store_true", help="those that need neither Chromium nor minutes")
    words.add_argument("--pictures", type=Path, metavar="FOLDER", help="keep a picture of each page there")
    asked = words.parse_args()
    if asked.program:
        os.environ["ACDM"] = str(asked.program.resolve())
    if asked.pictures:
        os.environ["DESK_PICTURES"] = str(asked.pictures.resolve())
    sys.dont_write_bytecode = True
    try:
        import aiohttp  # noqa: F401  pylint: disable=import-outside-toplevel,unused-import
        import argon2  # noqa: F401  pylint: disable=import-outside-toplevel,unused-import
        import jsonschema  # noqa: F401  pylint: disable=import-outside-toplevel,unused-import
        import prometheus_client  # noqa: F401  pylint: disable=import-outside-toplevel,unused-import
        import pytest  # pylint: disable=import-outside-toplevel
    except ImportError as missing:
        print(f"the tests of the desk are left out: {missing}")
        if asked.quick:
            return LEFT_OUT
        print("0 cases, 0 failed")
        return 0
    counted = Counted()
    files = [str(TESTS / name) for name in QUICK if (TESTS / name).exists()] if asked.quick else [str(TESTS)]
    status = pytest.main(["-q", "--no-header", "-c", str(TESTS / "pytest.ini"), *files], plugins=[counted])
    print(f"{counted.cases} cases, {counted.failed} failed")
    return 1 if counted.failed or status not in (0, 5) else 0


if __name__ == "__main__":
    sys.exit(main())
