"""How race-record, its companions and the scripts at the top begin. An older Python must read this file, and what is loaded before it, to say that it is
too old: nothing in them is newer than Python 3.6."""

import os
import sys

LEAST = (3, 9)
FAILED = 3  # the status: there is no answer


def begin(name: str) -> None:
    """Refuses an older Python by status 3. Where you have modules of your own (`PYTHONPATH`), Python's come first: one of yours may have the same name."""
    if sys.version_info[:2] < LEAST:
        here = "%s is %s" % (sys.executable, ".".join(map(str, sys.version_info[:3])))
        said = "%s: Python %d.%d or later is needed, and %s. Run it by a newer one, such as: python3.11 %s\n" % (name, LEAST[0], LEAST[1], here, sys.argv[0])
        if sys.stderr is not None:  # it may be closed
            sys.stderr.write(said)
        sys.exit(FAILED)
    yours = [os.path.abspath(path) for path in os.environ.get("PYTHONPATH", "").split(os.pathsep)]
    sys.path.sort(key=lambda path: os.path.abspath(path) in yours)
