"""How a script of the plugin ends: with a status, with a line where something went wrong, and without a traceback."""
from __future__ import annotations

import os
import sys
from typing import Callable, NoReturn

from plugin.said import Stop, say

# Set to 1 it shows where an error of the plugin itself arose.
_DEBUG = "KUBECTL_NP_DEBUG"


def run(main: Callable[[], int]) -> NoReturn:
    """Runs the function and ends the process with its status, or with that of what it raised.

    Nothing of Python runs after it, so that PYTHONINSPECT and `python3 -i` open no prompt.
    """
    status = _flushed(_status_of(main))
    os._exit(status)


def _status_of(main: Callable[[], int]) -> int:
    try:
        return main()
    except Stop as end:
        end.tell()
        return end.status
    except SystemExit as end:
        return end.code if isinstance(end.code, int) else int(end.code is not None)
    except KeyboardInterrupt:
        return 130
    except MemoryError:
        say("out of memory")
        return 4
    except OSError as error:
        _show_place()
        say(": ".join(str(part) for part in (error.filename, error.strerror or error) if part is not None))
        return 3
    except BaseException as error:  # pylint: disable=broad-exception-caught
        _show_place()
        say("an error of the plugin itself (%s: %s); %s=1 shows where" % (type(error).__name__, error, _DEBUG))
        return 3


def _show_place() -> None:
    if os.environ.get(_DEBUG) == "1" and sys.stderr is not None:
        import traceback
        traceback.print_exc()
        sys.stderr.flush()


def _flushed(status: int) -> int:
    """The status, or 3 where what was written does not reach standard output."""
    try:
        if sys.stdout is not None:
            sys.stdout.flush()
    except (OSError, ValueError):
        say("the answer cannot be written")
        return 3
    return status
