"""What the feeder takes over from hdfs/, the conversion of real logs. No other module of this folder imports it."""
import os
import sys

sys.path.append(os.path.join(os.path.dirname(os.path.realpath(__file__)), ".."))

from hdfs.converting.conversion import Conversion, records_of
from hdfs.converting.edits import EDITS_OF, end_mark, start_mark
from hdfs.converting.log import Log
from hdfs.converting.tree import Tree, tree_of
from hdfs.finding import find_program, is_program, no_program, tell_if_unproved
from hdfs.formats import LINE_BYTES, Image, Refused, number, to_json

__all__ = [
    *("Conversion", "EDITS_OF", "Image", "LINE_BYTES", "Log", "Refused", "Tree", "end_mark", "find_program", "is_program"),
    *("no_program", "number", "records_of", "start_mark", "tell_if_unproved", "to_json", "tree_of"),
]
