"""What the commands here have in common."""
import argparse
import contextlib
import os
import sys
import traceback

from hdfs.formats import Refused

NOTHING_SAID = 2


class Parser(argparse.ArgumentParser):
    """Parses arguments. The help begins with what the command is for, which is the first line of its text."""

    def __init__(self, text):
        about, _, more = text.partition("\n")
        super().__init__(epilog=more.strip())
        self.about = about

    def format_help(self):
        return f"{self.about}\n\n{super().format_help()}"

    def error(self, message):
        """Ends with status 2, also where nobody can be told why."""
        tell_last(f"{self.format_usage()}{self.prog}: error: {message}")
        sys.exit(NOTHING_SAID)


def in_words(reason):
    """A reason as a sentence, also where the system has it."""
    if not isinstance(reason, OSError) or reason.filename is None:
        return str(reason)
    words = {FileNotFoundError: "there is no file or folder", NotADirectoryError: "this is no folder:"}
    words.update({PermissionError: "this may not be read or written:", IsADirectoryError: "this is a folder:"})
    return f"{words.get(type(reason), f'{reason.strerror}:')} {reason.filename}"


def judged(name, judge):
    """Runs a command that judges something, and answers its status: 0 where `judge` answers that all is the same, else 1.

    It is 2 where nothing can be said, for whatever reason, and standard error says why.
    """
    # As the program prints, whatever the surroundings are.
    sys.stdout.reconfigure(encoding="utf-8")
    try:
        is_same = judge()
        sys.stdout.flush()
        return 0 if is_same else 1
    except (Refused, OSError) as reason:
        told = f"{name}: nothing can be said: {in_words(reason)}"
    except Exception:
        told = f"{name}: nothing can be said, because of a defect of this script:\n{traceback.format_exc()}"
    tell_last(told.rstrip("\n"))
    return NOTHING_SAID


def tell_last(text):
    """Prints a text to standard error. What is left of either stream is written nowhere, so that it changes no status."""
    with contextlib.suppress(OSError):
        print(text, file=sys.stderr, flush=True)
    nowhere = os.open(os.devnull, os.O_WRONLY)
    for stream in (sys.stdout, sys.stderr):
        os.dup2(nowhere, stream.fileno())
