"""What the feeder keeps over a restart, and how it stands in its file.

Values and bytes alone. The core replaces a `Kept` whole, the hands write its bytes, and the start reads them back.
"""
import hashlib
import json
from typing import Dict, NamedTuple, Optional

NAME = "state"
VERSION = 1


class Damaged(Exception):
    """A file that is not as it was written. The text is the reason."""


class Promotion(NamedTuple):
    """A promotion that was asked of the service."""

    txid: int
    epoch: int
    # Whether the service answered that it is active. Until then nothing is given up.
    is_answered: bool
    # The segments above its TXID that it gives up: their names, each with its SHA-256, or None where it could not be read.
    given_up: Dict[str, Optional[str]]


class Kept(NamedTuple):
    # The greatest TXID that was ever seen in the folder. It falls by a promotion that gives up what lies above it.
    seen: int = 0
    # The greatest epoch that was ever named.
    epoch: int = 0
    promotion: Optional[Promotion] = None
    # What all promotions gave up.
    given_up: Dict[str, Optional[str]] = {}


def bytes_of(kept: Kept) -> bytes:
    """The file: a line of JSON, and a line with its SHA-256."""
    promotion = kept.promotion and kept.promotion._asdict()
    members = {**kept._asdict(), "promotion": promotion, "version": VERSION}
    line = json.dumps(members, sort_keys=True).encode() + b"\n"
    return line + hashlib.sha256(line).hexdigest().encode() + b"\n"


def kept_in(data: bytes) -> Kept:
    """What a file has. A damaged one is refused: what was seen may be in it."""
    line, _, rest = data.partition(b"\n")
    if rest != hashlib.sha256(line + b"\n").hexdigest().encode() + b"\n":
        raise Damaged("its sum is another one")
    members = json.loads(line)
    if members.pop("version", None) != VERSION:
        raise Damaged(f"its version is not {VERSION}")
    promotion = members["promotion"]
    return Kept(**{**members, "promotion": promotion and Promotion(**promotion)})


def after_restart(kept: Kept, checkpoint: int) -> Kept:
    """What is known at a start: a promotion that nobody answered gives up nothing, and a checkpoint was seen."""
    promotion = kept.promotion
    if promotion is not None and not promotion.is_answered:
        promotion = None
    return kept._replace(seen=max(kept.seen, checkpoint), promotion=promotion)
