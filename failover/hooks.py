"""The commands that an operator gives: a fence, what ends the log, and what starts who writes.

A hook runs in a group of its own. One that did not end in its time is killed with its group, and did not answer. What it
prints goes to a file, so that a process which it leaves behind keeps nobody waiting.
"""
import os
import shlex
import signal
import subprocess
import tempfile

from asks import Failed

MOST_BYTES = 4096


class Hook:
    """One call of a command, with its arguments behind it."""

    def __init__(self, command, arguments):
        self.words = [*shlex.split(command), *map(str, arguments)]
        self.process = None
        self.is_cancelled = False

    def run(self, seconds):
        """What it printed."""
        with tempfile.TemporaryFile() as output:
            try:
                self.process = subprocess.Popen(self.words, stdin=subprocess.DEVNULL, stdout=output, start_new_session=True)
            except OSError as fault:
                return Failed("hook", f"{self.words[0]}: {fault.strerror}")
            if self.is_cancelled:
                self.kill()
            try:
                status = self.process.wait(seconds)
            except subprocess.TimeoutExpired:
                self.kill()
                self.process.wait()
                return Failed("hook", f"{self.words[0]} did not end in {seconds:g} s, and was killed")
            output.seek(0)
            printed = output.read(MOST_BYTES).decode(errors="replace")
        return printed if status == 0 else Failed("hook", f"{self.words[0]} ended with status {status}")

    def cancel(self):
        """From another thread: nobody waits for it any more."""
        self.is_cancelled = True
        self.kill()

    def kill(self):
        if self.process is not None and self.process.poll() is None:
            try:
                os.killpg(self.process.pid, signal.SIGKILL)
            except ProcessLookupError:
                pass
