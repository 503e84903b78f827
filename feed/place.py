"""Where a log is: the number that the program counts, and the cluster's TXID. Values alone, for all other modules.

The two are the same until marks are put in: a long segment is cut, and the marks at a cut take numbers.
"""
from typing import NamedTuple

GREATEST_NUMBER = 2**63 - 1


class Place(NamedTuple):
    """The number of a log's last transaction, and its TXID."""

    number: int
    txid: int


def number_of_promotion(reached: Place, txid: int) -> int:
    """The number that a promotion at a TXID asks for. It is that of the last transaction at its TXID alone."""
    if txid == reached.txid:
        return reached.number
    number = min(max(reached.number + txid - reached.txid, 0), GREATEST_NUMBER)
    return number if number != reached.number else reached.number + 1


def number_of_seen(reached: Place, seen: int, has_each: bool) -> int:
    """The number of a TXID that was seen, and never a greater one: that would refuse each promotion for good.

    Where each transaction has a line, its number is at least as far ahead. Else one line is sure, the segment's mark.
    """
    above = max(seen - reached.txid, 0)
    return min(reached.number + (above if has_each else min(above, 1)), GREATEST_NUMBER)
