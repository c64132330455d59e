"""Runs the command: `python -m gregorio_chant` is `gregorio-chant`."""
from __future__ import annotations

import sys

if sys.platform == "win32":
    sys.exit("gregorio-chant: the command is for Linux; here the package has its calls alone")

from gregorio_chant.work.ending import end_at_signals, leave_signals


def main() -> int:
    """Runs the command with the words of the process, and returns the exit status. What takes long
    to be imported is imported here, so that a signal meanwhile ends the command as any other
    does."""
    end_at_signals()
    try:
        from gregorio_chant.commands.main import main as run

        return run(sys.argv[1:])
    finally:
        leave_signals()


if __name__ == "__main__":
    sys.exit(main())
