"""What the desk says: answers on standard output, as lines or as JSON, and complaints on standard error."""

import json
import os
import sys
from typing import Any, Callable, Iterable

from desk.faults import Fault

ALL_DONE, SOME_REFUSED, CANT_BE_READ = 0, 1, 2
INTERRUPTED = 130
BROKEN_PIPE = 141


def complain(text: str) -> None:
    """One line on standard error."""
    if sys.stderr is not None:
        try:
            print(text, file=sys.stderr, flush=True)
        except OSError:
            pass


class Output:
    """Answers, as lines or as JSON. A failed write is an OSError, which `guarded` tells."""

    def __init__(self, is_json: bool):
        self.is_json = is_json

    def tell(self, lines: Iterable[str], data: Any) -> None:
        """An answer: its lines, or one JSON document on a line."""
        if self.is_json:
            print(json.dumps(data))
        else:
            for line in lines:
                print(line)

    def raw(self, data: bytes) -> None:
        """Bytes as they are."""
        sys.stdout.flush()
        sys.stdout.buffer.write(data)


def open_streams() -> None:
    """Sees to it that no character of a name or of a message ends the desk; a fault if there is no standard output."""
    if sys.stdout is None:
        raise Fault("standard output is closed; expected one that can be written")
    for stream in (sys.stdout, sys.stderr):
        if stream is not None:
            stream.reconfigure(errors="backslashreplace")
    if sys.stdin is not None:
        sys.stdin.reconfigure(errors="surrogateescape")


def drop_output() -> None:
    """Nothing more is written, so that the end of the process does not try."""
    nowhere = os.open(os.devnull, os.O_WRONLY)
    os.dup2(nowhere, sys.stdout.fileno())
    os.close(nowhere)


def guarded(work: Callable[[], int]) -> int:
    """The exit status of some work; what keeps it from its end is told in one line."""
    try:
        status = ended(work)
        if sys.stdout is not None:
            sys.stdout.flush()
        return status
    except BrokenPipeError:
        drop_output()
        return BROKEN_PIPE
    except OSError as error:
        complain(f"desk: standard output can't be written: {error.strerror or error}")
        drop_output()
        return CANT_BE_READ


def ended(work: Callable[[], int]) -> int:
    """The same, but for a failed write."""
    try:
        open_streams()
        return work()
    except Fault as fault:
        complain(fault.told())
        return CANT_BE_READ
    except KeyboardInterrupt:
        return INTERRUPTED
    except SystemExit as end:  # the way in which argparse, or a signal while the library is built, ends it
        return end.code
