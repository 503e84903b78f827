"""What differs in the rests of two images: which files have to join the part, so that one more pass tells how.

Of each file a rest has the first word of its sum. They are added in buckets by the ids, so that two processes tell one
another no more than what is in the buckets that differ. A word that is alike by chance is noticed by the next pass: the
sums of the rests differ still.
"""
from array import array
from collections import Counter
from typing import NamedTuple

from audit.comparing.rest import Sums, digest_of, words_of
from hdfs.reading.inodes import DIRECTORY, NONE

BUCKETS = 4096


class Joining(NamedTuple):
    """The ids of files that differ, and those of directories whose files of the rest have to join the part."""

    files: set
    directories: set


def buckets_of(rest):
    """The sums of the words of all files and lists, by the ids of the files and of the directories."""
    buckets = [0] * BUCKETS
    for inode_id, word, _ in rest.files():
        buckets[inode_id % BUCKETS] += word
    for owner, digest in rest.listed():
        buckets[owner % BUCKETS] += words_of(digest)[0]
    return buckets


def marks_in(rest, buckets):
    """The ids and the words of the files in these buckets, and the directories there with the sums of their lists."""
    files = Counter((inode_id, word) for inode_id, word, _ in rest.files() if inode_id % BUCKETS in buckets)
    return files, Counter(pair for pair in rest.listed() if pair[0] % BUCKETS in buckets)


def beside(rest, joining):
    """The ids of all files that stand in these directories, or in one that has one of these files."""
    directories = joining.directories | {directory for inode_id, _, directory in rest.files() if inode_id in joining.files}
    return array("q", (inode_id for inode_id, _, directory in rest.files() if directory in directories))


def differing(ours, second):
    """What differs in a rest and in that of the second image."""
    pairs = zip(buckets_of(ours), second.buckets_of_rest())
    buckets = {at for at, (one, other) in enumerate(pairs) if one != other}
    found = [(one - other) + (other - one) for one, other in zip(marks_in(ours, buckets), second.marks_of_rest(buckets))]
    return Joining(*({inode_id for inode_id, _ in them} for them in found))


def order_of(rest, named):
    """The sum of the places of what has none of these ids among files of a rest, and the places of what has one."""
    sums, places = Sums(), list(rest.places_left())
    sums.add(b"".join([digest_of(array("q", place[:2]).tobytes()) for place in places if place.child not in named]))
    return sums.members(), [place for place in places if place.child in named]


def directories_below(image, ids):
    """The ids of those of these inodes that are directories, and of all directories below them."""
    inodes, found = image.inodes, set()
    ahead = [row for row in inodes.rows_of(ids) if row != NONE]
    while ahead:
        row = ahead.pop()
        if inodes.kinds[row] == DIRECTORY and row not in found:
            found.add(row)
            ahead += image.all_below(row)
    return {inodes.ids[row] for row in found}
