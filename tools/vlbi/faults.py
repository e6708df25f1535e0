"""What is wrong with a file, or with what was asked, in one line that names the file."""
from __future__ import annotations


class Fault(ValueError):
    """Something that is no file of its kind, or that cannot be done.

    what  what is wrong, in words
    path  the file in which it is, once that is known
    """

    def __init__(self, what: str, path: str | None = None) -> None:
        super().__init__(what)
        self.what = what
        self.path = path

    def __str__(self) -> str:
        return self.what if self.path is None else f"{self.path}: {self.what}"

    def name_file(self, path: str | None) -> None:
        """From now on the fault names this file, where it named none."""
        if self.path is None:
            self.path = path


class PlacedFault(Fault):
    """A fault at a byte of a file: the first rule that it breaks, by the word that the program has for it.

    kind  that word
    at    the place in bytes, from 0
    """

    FRONT = ""  # what is said before it

    def __init__(self, kind: str, at: int, path: str | None = None) -> None:
        super().__init__(f"{self.FRONT}{kind} at byte {at}", path)
        self.kind = kind
        self.at = at
