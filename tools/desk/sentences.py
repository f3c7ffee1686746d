"""Requests in words: the sender, the kind, and what the kind needs. Names and places are found later, on a club."""

from typing import Callable, Dict, NamedTuple, Optional, Tuple

from desk import numbers
from desk.faults import Fault
from desk.tokens import Cursor, PLACE_SIGN, Word, check_name, is_number, number, quoted

FORMS: Dict[str, Tuple[str, ...]] = {  # how each kind is written behind its sender
    "MAKE": ("MAKE group|member|gear NAME in GROUP [= NUMBER]",),
    "PUT": ("PUT OBJECT into GROUP",),
    "TAKE": ("TAKE OBJECT from GROUP",),
    "APPOINT": ("APPOINT MEMBER owner|manager of GROUP [= PLACE]",
                "APPOINT MEMBER administrator of USERS over GEAR [= PLACE]"),
    "DISMISS": ("DISMISS MEMBER owner|manager of GROUP", "DISMISS MEMBER administrator of USERS over GEAR",
                "DISMISS warrant PLACE"),
    "GRANT": ("GRANT USERS GEAR OPERATION ..|all [= PLACE]",),
    "WITHDRAW": ("WITHDRAW USERS GEAR [OPERATION ..]", "WITHDRAW rule PLACE"),
    "USE": ("USE GEAR OPERATION",),
}


def form(kind: str) -> str:
    """How a kind is written, in one line."""
    return ", or ".join(f"SENDER {one}" for one in FORMS[kind])


def all_forms() -> str:
    """How all requests are written, for those who ask for help."""
    forms = "\n".join(f"  SENDER {one}" for kind in numbers.KINDS for one in FORMS[kind])
    operations = ", ".join(f"{k} {name}" for k, name in enumerate(numbers.OPERATIONS))
    return (f"Requests, each by its sender (a name or a number; MAKE gives a name):\n{forms}\n"
            "  Numbers and bytes are taken too: MAKE 1 2 2 0, bytes 08 00 01 00 01 02 02 00, repeat 3 USE 7 6 2\n"
            f"Operations: {operations}; 6 and 7 are the club's own")


class Post(NamedTuple):
    """A warrant as it is named: kind, holder, A, and B for an administrator."""
    kind: int
    holder: Word
    a: Word
    b: Optional[Word]


class Spoken(NamedTuple):
    """A request in words; of what its kind does not need there is nothing."""
    kind: str
    sender: Word
    column: int = 1  # of the kind: where a fault of the request as a whole is told
    sort: int = 0
    name: Optional[Word] = None  # of the object that a MAKE makes, or its number
    object: Optional[Word] = None  # of PUT and TAKE, and the gear of USE
    group: Optional[Word] = None
    post: Optional[Post] = None
    users: Optional[Word] = None
    gear: Optional[Word] = None
    operations: int = 0  # as a set
    operation: int = 0
    place: Optional[Word] = None


def made(cursor: Cursor, asked: Spoken) -> Spoken:
    """MAKE: a sort, a new name or a number, a group, perhaps a number."""
    sort = cursor.choice(numbers.SORTS[1:], "sort")
    name = cursor.reference("the new object")
    cursor.literal("in", form("MAKE"))
    group = cursor.reference("the group")
    place = cursor.place(numbers.OBJECTS - 1)
    if place and is_number(name):
        raise Fault(f"object {name.text} has its number already; expected no `=` behind it", place.column)
    return asked._replace(sort=numbers.SORTS.index(sort.text), name=name, group=group, place=place)


def moved(cursor: Cursor, asked: Spoken) -> Spoken:
    """PUT and TAKE: an object and a group."""
    what = cursor.reference("the object")
    cursor.literal("into" if asked.kind == "PUT" else "from", form(asked.kind))
    return asked._replace(object=what, group=cursor.reference("the group"))


def post_in(cursor: Cursor, kind: str) -> Post:
    """A member, a kind of warrant, and its groups."""
    holder = cursor.reference("the member")
    warrant = numbers.WARRANTS.index(cursor.choice(numbers.WARRANTS[1:], "warrant").text)
    cursor.literal("of", form(kind))
    a, b = cursor.reference("the group"), None
    if warrant == numbers.ADMINISTRATOR:
        cursor.literal("over", form(kind))
        b = cursor.reference("the group of gear")
    return Post(warrant, holder, a, b)


def appointed(cursor: Cursor, asked: Spoken) -> Spoken:
    """APPOINT: a post, perhaps a place."""
    return asked._replace(post=post_in(cursor, "APPOINT"), place=cursor.place(numbers.WARRANT_PLACES - 1))


def numbered_place(cursor: Cursor, table: str) -> Optional[Word]:
    """The place behind the word for a table, if that word stands here."""
    word = cursor.peek()
    if word is None or word.text != table:
        return None
    cursor.take(table)
    place = cursor.take(f"the place of the {table}, a number")
    number(place, 0, numbers.LARGEST_BYTE, f"the place of the {table}")
    return place


def dismissed(cursor: Cursor, asked: Spoken) -> Spoken:
    """DISMISS: a post, or the place of a warrant."""
    place = numbered_place(cursor, "warrant")
    return asked._replace(place=place) if place else asked._replace(post=post_in(cursor, "DISMISS"))


def operation_set(cursor: Cursor) -> int:
    """The operations up to the end or to `=`, as a set; 0 if there is none."""
    found = 0
    while cursor.peek() and cursor.peek().text != PLACE_SIGN:
        word = cursor.take("an operation")
        if word.text == "all" and found == 0:
            return numbers.ALL_OPERATIONS
        bit = 1 << operation_in(word, numbers.OPERATION_COUNT - 1)
        if found & bit:
            raise Fault(f"{word.text!r} is given twice; expected each operation once", word.column)
        found |= bit
    return found


def operation_in(word: Word, highest: int) -> int:
    """An operation by its name or its number."""
    if is_number(word):
        return number(word, 0, highest, "an operation")
    known = numbers.operation_number(word.text)
    if known is None:
        names = ", ".join(numbers.OPERATIONS)
        raise Fault(f"{quoted(word.text)} is no operation; expected {names}, or a number", word.column)
    return known


def granted(cursor: Cursor, asked: Spoken) -> Spoken:
    """GRANT: two groups, operations, perhaps a place."""
    users, gear = cursor.reference("the group of users"), cursor.reference("the group of gear")
    found = operation_set(cursor)
    if not found:
        at = cursor.peek().column if cursor.peek() else cursor.end
        raise Fault(f"no operation stands here; expected one or more: {form('GRANT')}", at)
    return asked._replace(users=users, gear=gear, operations=found, place=cursor.place(numbers.RULE_PLACES - 1))


def withdrawn(cursor: Cursor, asked: Spoken) -> Spoken:
    """WITHDRAW: two groups and perhaps operations, or the place of a rule."""
    place = numbered_place(cursor, "rule")
    if place:
        return asked._replace(place=place)
    users, gear = cursor.reference("the group of users"), cursor.reference("the group of gear")
    return asked._replace(users=users, gear=gear, operations=operation_set(cursor))


def used(cursor: Cursor, asked: Spoken) -> Spoken:
    """USE: gear and one operation."""
    gear = cursor.reference("the gear")
    return asked._replace(object=gear, operation=operation_in(cursor.take("an operation"), numbers.LARGEST_BYTE))


READERS: Dict[str, Callable[[Cursor, Spoken], Spoken]] = {
    "MAKE": made, "PUT": moved, "TAKE": moved, "APPOINT": appointed,
    "DISMISS": dismissed, "GRANT": granted, "WITHDRAW": withdrawn, "USE": used,
}


def sentence(cursor: Cursor) -> Spoken:
    """The request in words that the cursor stands before."""
    sender = cursor.take("the sender of a request")
    kinds = ", ".join(numbers.KINDS)
    kind = cursor.take(f"the sender's request: {kinds}")
    if kind.text not in numbers.KINDS:
        hint = " (kinds are in capitals)" if kind.text.upper() in numbers.KINDS else ""
        raise Fault(f"expected a kind of request, not {quoted(kind.text)}{hint}; the kinds are {kinds}", kind.column)
    if is_number(sender):
        number(sender, 0, numbers.LARGEST_BYTE, "the sender")
    else:
        check_name(sender, "the sender: a name or a number")
    spoken = READERS[kind.text](cursor, Spoken(kind.text, sender, kind.column))
    cursor.finish(form(kind.text))
    return spoken
