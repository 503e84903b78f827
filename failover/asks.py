"""What the controller's core asks of the world, what it hears, and what it is told at its start. Values alone.

An ask has a kind, arguments, and the seconds within which it is answered. Kinds, and what is answered:

    open                       a new session of ZooKeeper: its time to live in seconds
    watch                      who has the lock: a Holder, or None. Where there is one, `freed` comes when the lock goes
    take VERSION               the lock is taken, in place of our own old one of that version (None: there is none): its version
    touch VERSION              the lock is written: its new version
    read NODE                  a Node
    write NODE TEXT VERSION    a node is replaced, if it has this version: its new version
    epoch HOST E               names an epoch to a feeder: {"epoch", "state"}
    health HOST                asks a feeder for its health: {"state", "reason"}, with None where all is well
    fence HOST E, finalize E, active E T     a hook: what it printed
    promote T E WITHIN         asks the own service for a promotion: (status, body)
    stop PATIENCE              ends the own service, by a signal if it takes longer than so many seconds: `ordered`, `killed`, or `gone`

Each may be answered by Failed instead. A request that may have been carried out all the same is Failed too.
"""
from typing import NamedTuple, Optional, Tuple


class Ask(NamedTuple):
    kind: str
    arguments: Tuple = ()
    within: float = 5.0


class Failed(NamedTuple):
    """Why there is no answer."""

    code: str
    text: str = ""


class Holder(NamedTuple):
    """Who has the lock."""

    host: str
    version: int


class Node(NamedTuple):
    text: str
    version: int


class Settings(NamedTuple):
    host: str
    # All hosts with a feeder, the own one among them.
    hosts: Tuple[str, ...]
    ttl: float = 10.0  # that is asked of ZooKeeper, in seconds
    fence: float = 30.0  # seconds that each hook has
    finalize: float = 30.0
    active: float = 30.0
    within: int = 30  # seconds that a promotion may wait for the log
    # Whether --finalize makes the journal refuse each lower epoch before it prints T.
    journal_refuses: bool = False
    # Whether there is a hook behind a promotion.
    has_active: bool = False


class GivenUp(Exception):
    """Why the lock is given back.

    `pause`: whether it stays out for a while, longer each time. `is_clear`: whether the own service is known to be no active.
    """

    def __init__(self, code, text="", pause=True, is_clear=False):
        super().__init__(text or code)
        self.code, self.pause, self.is_clear = code, pause, is_clear


class Again(Exception):
    """Somebody else wrote, or named a greater epoch: all is read anew. `least`: the epoch to rise above."""

    def __init__(self, text, least=0):
        super().__init__(text)
        self.least = least


class Health(NamedTuple):
    """What the own feeder said last."""

    is_good: bool  # status 200
    state: str
    reason: Optional[str]
    known: int  # the greatest TXID that it ever saw
    txid: int
    asked_at: float  # when it was asked
