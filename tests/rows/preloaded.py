"""Libraries that are loaded before the program, from the C files beside this one."""

import os
import subprocess
from dataclasses import dataclass
from pathlib import Path

from row_bytes import NoRow


@dataclass(frozen=True)
class Preloaded:
    """A library that is loaded before the program, the variables that it reads, and the descriptors
    that it writes to."""

    library: str
    variables: dict
    descriptors: tuple = ()

    def environment(self):
        """The environment of the process."""
        return {**os.environ, "LD_PRELOAD": self.library, **self.variables}


def library_of(books, name):
    """The library of this name."""
    path = f"{books.room}/{name}.so"
    if not os.path.exists(path):
        source = str(Path(__file__).with_name(f"{name}.c"))
        words = ["cc", "-O1", "-shared", "-fPIC", "-o", path, source, "-ldl"]
        if subprocess.run(words, check=False).returncode != 0:
            raise NoRow(f"{name}.c can't be compiled")
    return path
