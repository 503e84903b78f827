"""Finds names in directories whose children lie in arrays."""
from array import array

from hdfs.reading.inodes import NONE


class Names:
    """What finds names: it has `inodes`, `children`, and the row of each child in `child_rows`.

    Where a directory's children are not one list in the order of their bytes, `in_order` has their rows in that order.
    """

    # Whether its rows have the names that the program has, and not the cluster's.
    has_names_of_program = False

    def count_in(self, row):
        """How many names a directory has."""
        only = self.children.only_list(row)
        return len(self.in_order[row]) if row in self.in_order else 0 if only is None else only.stop - only.start

    def row_of(self, row, name):
        """The row of what a directory has under a name, or NONE."""
        rows, only = self.in_order.get(row), self.children.only_list(row)
        if rows is not None:
            low, high = 0, len(rows)
        elif only is not None:
            rows, low, high = self.child_rows, only.start, only.stop
        else:
            return NONE
        wanted, names, ends = self.full_name(name), self.inodes.names, self.inodes.name_ends
        while low < high:
            middle = (low + high) // 2
            child = rows[middle]
            found = names[ends[child] : ends[child + 1]]
            if found == wanted:
                return child
            if found < wanted:
                low = middle + 1
            else:
                high = middle
        return NONE

    def rows_in(self, row):
        """The rows of the children that a directory lists, in the order of the dump."""
        only = self.children.only_list(row)
        places = self.children.places(row) if only is None else None
        return self.child_rows[only] if only else array("i", map(self.child_rows.__getitem__, places))

    def all_below(self, row):
        """The rows of all that a directory lists."""
        return self.rows_in(row)

    def full_name(self, name):
        """The bytes of a name, as the arrays have it."""
        return name.encode()
