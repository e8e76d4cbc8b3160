"""The files of a folder, which are put back as they were."""

import os
from pathlib import Path


class KeptFiles:
    """The files of a folder, as they are now. What is put back are the same files, since a process
    has them open. One that is unlinked in between stands in another folder, the grave, under its
    inode's number."""

    def __init__(self, folder, grave):
        self.folder, self.grave = folder, grave
        # The name of each, and what it holds, by its inode.
        self.held = {
            it.inode(): (it.name, Path(it.path).read_bytes()) for it in os.scandir(folder)
        }

    def put_back(self):
        """Puts the files back as they were."""
        for it in list(os.scandir(self.folder)):
            os.rename(it.path, f"{self.grave}/{it.inode()}")
        for inode, (name, held) in self.held.items():
            path = f"{self.grave}/{inode}"
            write_over(path, held)
            os.rename(path, f"{self.folder}/{name}")
        for it in list(os.scandir(self.grave)):
            os.unlink(it.path)


def write_over(path, held):
    """Lets a file hold this; where it is away, it is made."""
    file = os.open(path, os.O_RDWR | os.O_CREAT, 0o600)
    try:
        os.pwrite(file, held, 0)
        os.ftruncate(file, len(held))
    finally:
        os.close(file)
