"""Starts the tools: python3 -m tigercanon, or the command tigercanon-tools."""

import signal
import sys


def main() -> None:
    if signal.getsignal(signal.SIGINT) is signal.default_int_handler:
        signal.signal(signal.SIGINT, signal.SIG_DFL)  # until the command has its own handler, and not a traceback
    from .commands import run

    sys.exit(run(sys.argv[1:]))


if __name__ == "__main__":
    main()
