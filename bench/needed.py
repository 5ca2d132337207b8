"""What the scripts need: the built program, and the tool that tells a run's memory."""

import sys
from pathlib import Path

# GNU time. It starts the program and tells its memory: that of a child counts what its parent had when it was forked, and this has little.
TIME = "/usr/bin/time"


def built_program(path):
    """The whole path of the built program; where it is not there, the script ends and says so."""
    if not path.is_file():
        sys.exit(f"{path} is not there: run ./kiasan once")
    return path.resolve()


def check_time():
    """Ends the script where GNU time is not there."""
    if not Path(TIME).is_file():
        sys.exit(f"{TIME} is not there (Debian's package `time`)")
