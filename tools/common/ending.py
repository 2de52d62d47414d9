"""How a script reads its inputs, and how it ends: a line on standard error, and a status that says its sort."""

from __future__ import annotations

import os
import sys
from typing import Callable, Iterator, Optional

USAGE = 2
REFUSED = 4
LIMIT = 5
READ_FAULT = 6
WRITE_FAULT = 7

STATUSES = """
exit statuses:
  0  all was read and written
  2  the words of the command line are wrong
  4  a row or a line was refused
  5  a limit was passed
  6  an input could not be read
  7  an output could not be written
"""


class Stop(Exception):
    """Ends the script with a status, once what came before is written."""

    def __init__(self, status: int, message: str):
        super().__init__(message)
        self.status = status


def open_text(path: Optional[str]):
    """A file, or standard input for None and '-', as text in which every byte can be told again.

    Line ends stay as they are, and the mark that some programs put before UTF-8 is dropped.
    """
    source = sys.stdin.fileno() if path in (None, '-') else path
    return open(source, encoding='utf-8-sig', errors='surrogateescape', newline='', closefd=source is path)


def lines_of(path: Optional[str]) -> Iterator[str]:
    """The lines of a file or of standard input, as they come."""
    try:
        with open_text(path) as file:
            yield from file
    except OSError as error:
        raise Stop(READ_FAULT, f'{path or "standard input"}: {error.strerror}') from error


def whole_number(text: str) -> int:
    """A number of decimal digits alone; ValueError for anything else."""
    if not (text.isascii() and text.isdigit()):
        raise ValueError(f'{text!r} is no whole number')
    return int(text)


def run(name: str, main: Callable[[], None]) -> None:
    """Runs a script, and ends the process with its status."""
    # With a buffer also where Python is told to have none: a system call for each line would cost more than the rest.
    sys.stdout = open(sys.stdout.fileno(), 'w', encoding='utf-8', errors='surrogateescape', newline='\n', closefd=False)
    sys.stderr.reconfigure(errors='backslashreplace')
    try:
        status = _status_of(name, main)
        sys.stdout.flush()
    except OSError as error:
        print(f'{name}: {error.filename or "write fault"}: {error.strerror}', file=sys.stderr)
        # What is left in the buffer can't be written any more, and is not to be tried again at exit.
        os.dup2(os.open(os.devnull, os.O_WRONLY), sys.stdout.fileno())
        status = WRITE_FAULT
    except KeyboardInterrupt:
        status = 130
    sys.exit(status)


def _status_of(name: str, main: Callable[[], None]) -> int:
    try:
        main()
        return 0
    except Stop as stop:
        sys.stdout.flush()
        print(f'{name}: {stop}', file=sys.stderr)
        return stop.status
