"""What is wrong with an input, in one line: where, what, and what was expected."""

from typing import Optional


class Fault(Exception):
    """A fault in an input. The column is known where it is found; file and line are added on the way out."""

    def __init__(self, what: str, column: Optional[int] = None, is_placed: bool = False):
        super().__init__(what)
        self.what = what
        self.column = column
        self.is_placed = is_placed

    def at(self, source: str, line: int) -> "Fault":
        """The same fault with its place in front; its column is 1 where none is known."""
        return Fault(f"{source}:{line}:{self.column or 1}: {self.what}", is_placed=True)

    def told(self) -> str:
        """The fault as the desk tells it: who speaks stands in front, unless the place does."""
        return self.what if self.is_placed else f"desk: {self.what}"
