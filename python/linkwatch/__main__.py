"""The command's entry: signals end it as they end other programs, from before the package is imported."""

import signal
import sys

if signal.getsignal(signal.SIGINT) is signal.default_int_handler:  # where it is ignored, it stays so
    signal.signal(signal.SIGINT, signal.SIG_DFL)
signal.signal(signal.SIGPIPE, signal.SIG_DFL)
try:
    from .command import run as main
except ImportError as error:  # the shared library is missing
    print(f"linkwatch: {error}", file=sys.stderr)
    sys.exit(2)

if __name__ == "__main__":
    sys.exit(main())
