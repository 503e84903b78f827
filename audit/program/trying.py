"""The unproved program of dist/try, for `follow --try`."""
import os
import subprocess
import sys

from hdfs.finding import ROOT, is_program
from hdfs.formats import Refused

# What builds it, unless it is kept already, and prints where it is.
TRY = os.path.join(ROOT, "dist", "try")


def tried_program(command=TRY):
    """The path of the unproved program, which is built if it is not there as the sources are now: that takes minutes."""
    if not os.path.exists(command):
        raise Refused(f"there is no {command}, which a checkout has to build the program unproved")
    done = subprocess.run([sys.executable, command], stdout=subprocess.PIPE)
    path = done.stdout.decode("utf-8", "replace").strip()
    if done.returncode or not is_program(path):
        raise Refused(f"{command} ended with status {done.returncode} and built no program")
    return path
