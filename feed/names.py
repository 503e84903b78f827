"""What the names in a folder of segments say, and what is asked of a look at it. Values alone: the core and the folder use them.

A name alone says that the log has its transactions: no file is asked for that, and no suffix hides it. A finalized segment is
`edits_F-L`, and one in progress `edits_inprogress_F`.
"""
import re
from typing import FrozenSet, NamedTuple, Optional

from place import GREATEST_NUMBER

# What else stands behind a name, such as .empty, .trash, .corrupt or .md5, makes it no segment.
FINALIZED = re.compile(r"edits_([0-9]{19})-([0-9]{19})(\.xml)?")
IN_PROGRESS = re.compile(r"edits_inprogress_([0-9]{19})(\.xml)?")


class Named(NamedTuple):
    """What a name says."""

    first: int
    last: int  # of one in progress: its first, which is all that is known
    name: str
    is_finalized: bool
    suffix: str


class Found(NamedTuple):
    """A segment in the folder."""

    named: Named
    # Another one says that the file has changed. None: it isn't known, or wasn't asked for.
    key: Optional[tuple]
    # Whether a segment in progress has its first transaction, as far as it can be read.
    is_begun: bool
    # The SHA-256 of one that was asked for, if it can be read.
    sum: Optional[str]


class Look(NamedTuple):
    """What is asked of a look."""

    # Nothing is asked about segments that end here or below.
    above: int
    # Whether an older listing will not do.
    is_fresh: bool
    # The names whose sums are asked for, and the TXID above which all are.
    summed: FrozenSet[str]
    summed_above: Optional[int]


def named(name: str) -> Optional[Named]:
    """What a name says, or None for one of no segment."""
    finalized = FINALIZED.fullmatch(name)
    if finalized:
        first, last = int(finalized[1]), int(finalized[2])
        is_good = 1 <= first <= last <= GREATEST_NUMBER
        return Named(first, last, name, True, finalized[3] or "") if is_good else None
    begun = IN_PROGRESS.fullmatch(name)
    if begun and 1 <= int(begun[1]) <= GREATEST_NUMBER:
        return Named(int(begun[1]), int(begun[1]), name, False, begun[2] or "")
    return None
