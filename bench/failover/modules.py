"""The modules of the failover's core, as they are or with a fault put back, and the known faults: the file `faults`."""
import os
import sys

HERE = os.path.dirname(os.path.realpath(__file__))
sys.path.append(os.path.join(HERE, ".."))

from known_faults import Sources

NAMES = ("asks", "way", "controller")
CONTROLLER = Sources(os.path.join(HERE, "..", "..", "failover"), NAMES, os.path.join(HERE, "faults"))

controller, faults = CONTROLLER.loaded, CONTROLLER.faults
