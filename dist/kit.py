"""Rattle's toolchain: where it is, and the licences of its libraries."""
import os
import subprocess

import evidence


class Kit:
    """The toolchain: its folder, and the licences of its libraries."""

    def __init__(self):
        page = subprocess.run(["rt", "doc"], stdout=subprocess.PIPE, check=True, text=True).stdout.strip()
        self.folder = os.path.dirname(page)

    def libraries(self):
        """The libraries of the toolchain of which the program may have code."""
        named = evidence.chain()[1]
        below = (os.path.join(self.folder, "rlibs", f"{name}.rlib", "below") for name in named)
        return sorted({*named, "std", *(it for folder in below if os.path.isdir(folder) for it in os.listdir(folder))})

    def licences(self, library):
        """The files with the licence of a library."""
        folder = os.path.join(self.folder, "rattle", library)
        return sorted(it for it in os.listdir(folder) if it.startswith("LICENSE")) if os.path.isdir(folder) else []
