"""Puts the records of several dumps in the order of their TXIDs, so that those of one TXID come one after another.

A NameNode's files overlap where one was copied while it was in progress, and the files of two JournalNodes do.
"""
import contextlib
import heapq

from hdfs.converting.conversion import records_of


def opened(name):
    return open(name, "rb")


def records_in(name, opened=opened, is_quick=False):
    """The records of a dump, in its order."""
    with opened(name) as file:
        yield from records_of(file, is_quick)


def merged(names, opened=opened, is_quick=False):
    """The records of all dumps. A dump is open only from its first TXID on, and one record of it is held.

    `opened` opens a dump. A quick reader takes those of common forms by themselves.
    """
    if len(names) == 1:
        yield from records_in(names[0], opened, is_quick)
        return
    waiting = in_order(names)
    # For each open dump: the TXID of its next record, its place among the dumps, the record, and the rest.
    heads = []
    place = 0
    while heads or place < len(waiting):
        while place < len(waiting) and (not heads or waiting[place][0] <= heads[0][0]):
            push(heads, place, records_in(waiting[place][1], opened, is_quick))
            place += 1
        _, at, record, rest = heapq.heappop(heads)
        yield record
        push(heads, at, rest)


def push(heads, place, records):
    """Puts back a dump with its next record, if it has one."""
    record = next(records, None)
    if record is not None:
        heapq.heappush(heads, (record.txid, place, record, records))


def in_order(names):
    """The dumps in the order of their first TXID, each behind it. Those without a record are left out."""
    begins = []
    for name in names:
        with contextlib.closing(records_in(name)) as records:
            first = next(records, None)
        if first is not None:
            begins.append((first.txid, name))
    return sorted(begins)
