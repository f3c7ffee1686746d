"""A club being run: the picture of its sheet as the library wrote it, and its names."""

from typing import List, NamedTuple, Optional, Tuple

from desk import numbers
from desk.library import Library
from desk.names import FOUNDING_NAMES, Names
from desk.numbers import Answer


class Warrant(NamedTuple):
    """A standing warrant as it is stored."""
    place: int
    kind: int
    holder: int
    a: int
    b: int


class Rule(NamedTuple):
    """A rule in use as it is stored."""
    place: int
    users: int
    gear: int
    operations: int


class Club:
    """A sheet and its names. What is decided is decided by the library; stored fields are read as they stand."""

    def __init__(self, library: Library, picture: bytes, names: Names):
        self.library = library
        self.picture = picture
        self.names = names

    def copy(self) -> "Club":
        """The same club, to go on from apart."""
        return Club(self.library, self.picture, self.names.copy())

    def judge(self, record: bytes) -> Answer:
        """The answer to a record; the sheet is then the one that the library wrote."""
        self.picture, answer = self.library.judge(self.picture, record)
        return answer

    # Questions to the library.

    def sort(self, number: int) -> int:
        """The sort of an object as it counts; 0 for none."""
        return self.library.byte_of("sort", self.picture, number)

    def objects(self, *sorts: int) -> List[int]:
        """The objects in use, or those of some sorts, lowest first."""
        wanted = sorts or (numbers.GROUP, numbers.MEMBER, numbers.GEAR)
        return [number for number in range(numbers.OBJECTS) if self.sort(number) in wanted]

    def set_of(self, question: str, *asked: int) -> Tuple[int, ...]:
        """The objects in the answer to a question, lowest first."""
        return numbers.members_of(self.library.set_of(question, self.picture, *asked))

    def permits(self, member: int) -> List[Tuple[int, List[int]]]:
        """Each gear on which a member is permitted something, with the operations."""
        allowed = [set(self.set_of("permitted", member, k)) for k in range(numbers.OPERATION_COUNT)]
        found = [(gear, [k for k, gears in enumerate(allowed) if gear in gears]) for gear in self.objects(numbers.GEAR)]
        return [(gear, operations) for gear, operations in found if operations]

    # What is stored.

    def direct_groups(self, number: int) -> Tuple[int, ...]:
        """The groups that an object is stored in."""
        at = numbers.ROWS_AT + number * numbers.ROW_BYTES
        return numbers.members_of(int.from_bytes(self.picture[at:at + numbers.ROW_BYTES], "little"))

    def warrants(self) -> List[Warrant]:
        """The warrants that stand, by place."""
        found = []
        for place in range(numbers.WARRANT_PLACES):
            at = numbers.WARRANTS_AT + place * numbers.WARRANT_BYTES
            kind, holder, a, b = self.picture[at:at + numbers.WARRANT_BYTES]
            if 1 <= kind < len(numbers.WARRANTS):
                found.append(Warrant(place, kind, holder, a, b))
        return found

    def rules(self) -> List[Rule]:
        """The rules in use, by place."""
        found = []
        for place in range(numbers.RULE_PLACES):
            at = numbers.RULES_AT + place * numbers.RULE_BYTES
            mark, users, gear, operations = self.picture[at:at + numbers.RULE_BYTES]
            if mark == numbers.RULE_IN_USE:
                found.append(Rule(place, users, gear, operations))
        return found

    # The lowest free places.

    def free_object(self) -> Optional[int]:
        """The lowest number that no object has; None if all are in use."""
        return lowest_free([number for number in range(numbers.OBJECTS) if self.sort(number)], numbers.OBJECTS)

    def free_warrant(self) -> Optional[int]:
        """The lowest place without a warrant; None if all have one."""
        return lowest_free([warrant.place for warrant in self.warrants()], numbers.WARRANT_PLACES)

    def free_rule(self) -> Optional[int]:
        """The lowest place without a rule; None if all have one."""
        return lowest_free([rule.place for rule in self.rules()], numbers.RULE_PLACES)

    # Names.

    def called(self, number: int) -> str:
        """What an object is called: its name, or its number."""
        return self.names.name(number) or f"object {number}"

    def all_called(self, found) -> str:
        """Some objects as a list in words."""
        return ", ".join(self.called(number) for number in found) or "nothing"


def lowest_free(used: List[int], size: int) -> Optional[int]:
    """The lowest place of a table that is not used; None if all are."""
    return next((place for place in range(size) if place not in used), None)


def named(library: Library, picture: bytes, since: str) -> Club:
    """The club of a picture, each object with a name: those of the founding where they fit, else the plain ones."""
    club = Club(library, picture, Names())
    for number, sort, name in FOUNDING_NAMES:
        if club.sort(number) == sort:
            club.names.bind(name, number, since)
    for number in club.objects():
        club.names.bind_plain(club.sort(number), number, since)
    return club


def founded(library: Library) -> Club:
    """The club at its founding."""
    return named(library, library.initial(), "at the founding")
