"""The names of an image whose inodes lie in arrays, for a tree that a log changes: only what it changes takes room."""
from hdfs.converting.tree import Tree, is_directory
from hdfs.reading.inodes import DIRECTORY, NONE

# What stands for a name that was not looked up yet.
UNSEEN = object()

# So many directories are found again without a search.
KNOWN = 10_000


class Listed(dict):
    """A directory of an image. It has the names that the log changed, gone ones as None, and those that were not there.

    All else is in the image.
    """

    __slots__ = ("image", "row", "left")

    def __init__(self, image, row):
        super().__init__()
        self.image = image
        self.row = row
        # How many names it has.
        self.left = image.count_in(row)

    def get(self, name, default=None):
        found = dict.get(self, name, UNSEEN)
        return self.seen(name) if found is UNSEEN else found

    def seen(self, name):
        """What the image has under a name. Files are no more than the numbers of their rows."""
        row = self.image.row_of(self.row, name)
        if row != NONE and self.image.inodes.kinds[row] != DIRECTORY:
            return row
        found = None if row == NONE else Listed(self.image, row)
        super().__setitem__(name, found)
        return found

    def __bool__(self):
        return self.left > 0

    def __contains__(self, name):
        return self.get(name) is not None

    def __setitem__(self, name, node):
        self.left += self.get(name) is None
        super().__setitem__(name, node)

    def pop(self, name, default=None):
        found = self.get(name)
        if found is None:
            return default
        self.left -= 1
        super().__setitem__(name, None)
        return found


class ListedTree(Tree):
    """The tree of the names in an image whose inodes lie in arrays."""

    def __init__(self, image):
        super().__init__(image.inodes)
        self.root = Listed(image, image.root)
        # Directories that were found, by their paths, until one of them is moved or removed.
        self.known = {}

    def directory(self, path):
        """What is at the path of a directory. That of the root is empty here."""
        found = self.known.get(path)
        if found is None:
            found = super().find(path or "/")
            if is_directory(found):
                if len(self.known) == KNOWN:
                    self.known.clear()
                self.known[path] = found
        return found

    def find(self, path):
        if path == "/":
            return self.root
        above, _, name = path.rpartition("/")
        directory = self.directory(above)
        return directory.get(name) if is_directory(directory) else None

    def place(self, path):
        above, _, name = path.rpartition("/")
        directory = self.directory(above)
        return directory if name and is_directory(directory) else None, name

    def remove(self, path):
        directory, name = self.place(path)
        if directory is not None and is_directory(directory.pop(name, None)):
            self.known.clear()
