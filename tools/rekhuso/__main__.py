"""Runs the commands: `python3 -m rekhuso COMMAND ..`, or `python3 tools/rekhuso COMMAND ..`.

The table of commands and their modules stands in `commands/__init__.py`. While the modules come in, Ctrl-C ends this at
once and in silence; what it does later stands in `command_line.py`.
"""

import os
import sys

# First of all, and by what is part of Python: each module more that came in before would be one more to be interrupted.
FIRST = __import__("_signal")
try:
    if FIRST.getsignal(FIRST.SIGINT) is FIRST.default_int_handler:
        FIRST.signal(FIRST.SIGINT, FIRST.SIG_DFL)
except KeyboardInterrupt:
    FIRST.signal(FIRST.SIGINT, FIRST.SIG_DFL)
    FIRST.raise_signal(FIRST.SIGINT)

if not __package__:
    # Run by the folder's name, Python looks for modules in the folder, and the package stands one above.
    sys.path[0] = os.path.dirname(os.path.dirname(os.path.realpath(__file__)))
if sys.version_info < (3, 9):
    try:
        __import__("rekhuso")
    except ImportError as fault:
        sys.stderr.write("%s\n" % fault)
    sys.exit(2)

try:
    from rekhuso.command_line import main
except MemoryError:
    sys.stderr.write("out of memory\n")
    sys.exit(2)

if __name__ == "__main__":
    sys.exit(main())
