"""Finds the program: in bin/ of a release, in out/ of a checkout, or on the PATH. Else it is the unproved one of dist/try.

And it knows where our other commands are.
"""
import os
import shutil
import sys

ROOT = os.path.realpath(os.path.join(os.path.dirname(os.path.realpath(__file__)), ".."))
RELEASED = os.path.join(ROOT, "bin", "nn_standby")
BUILT = os.path.join(ROOT, "crates", "nn_standby", "out", "nn_standby")
UNPROVED = os.path.join(ROOT, "out", "nn_standby-unproved")
HOW = "a release has it in bin/; or build it by `rt run < /dev/null` in crates/nn_standby, or unproved by dist/try"


def path_of_command(name):
    """The path of a command such as `audit` or `from-oev`."""
    return os.path.join(ROOT, "hdfs" if name.startswith("from-") else "audit", f"zulurowan-{name}")


def is_program(path):
    return os.path.isfile(path) and os.access(path, os.X_OK)


def no_program(path):
    """That there is no program at a place, and how to get one."""
    return f"there is no program {path}: {HOW}"


def find_program():
    """The path of the program, or the place where a build puts it."""
    found = next((path for path in (RELEASED, BUILT) if is_program(path)), None) or shutil.which("nn_standby")
    return found or (UNPROVED if is_program(UNPROVED) else BUILT)


def tell_if_unproved(path):
    """Says on standard error that a program is unproved, where its name says so."""
    if os.path.basename(os.path.realpath(path)).endswith("-unproved"):
        print(f"{os.path.basename(sys.argv[0])}: the program {path} is unproved", file=sys.stderr)
