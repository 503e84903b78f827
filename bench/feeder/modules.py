"""The feeder's modules, as they are or with a fault put back, and the known faults: the file `faults`."""
import os
import sys

HERE = os.path.dirname(os.path.realpath(__file__))
sys.path.append(os.path.join(HERE, ".."))

from known_faults import Sources, Stale

NAMES = ("place", "names", "state", "program", "following", "segments", "folder", "store", "promotions", "keeping", "datanodes", "figures", "core")
FEEDER = Sources(os.path.join(HERE, "..", "..", "feed"), NAMES, os.path.join(HERE, "faults"))

faults = FEEDER.faults


def feeder(changes=None):
    """The modules, loaded anew, with new sources by the name of their module."""
    modules = FEEDER.loaded(changes)
    # What the laws read a state with.
    modules.judge_state = modules.state
    return modules
