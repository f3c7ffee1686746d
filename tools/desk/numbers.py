"""The tables of document 01, said once: kinds of requests, sorts, warrants, operations, refusals, the picture."""

from typing import Dict, NamedTuple, Optional, Tuple

OBJECTS = 64
WARRANT_PLACES = 32
RULE_PLACES = 64
NOTHING_CITED = 255
LARGEST_BYTE = 255
BOARD_BYTES = 65536  # a longer input is `too long` for the board
TOO_LONG = "too long"

FIELDS: Dict[str, Tuple[str, ...]] = {  # the bytes of a record after its kind; the kinds are numbered from 1
    "MAKE": ("sender", "place", "sort", "group"),
    "PUT": ("sender", "object", "group"),
    "TAKE": ("sender", "object", "group"),
    "APPOINT": ("sender", "place", "kind", "holder", "A", "B"),
    "DISMISS": ("sender", "place"),
    "GRANT": ("sender", "place", "U", "T", "operations"),
    "WITHDRAW": ("sender", "place"),
    "USE": ("sender", "gear", "operation"),
}
KINDS = tuple(FIELDS)
HEAD = 4  # the bytes of a record before its fields: its length and its kind

SORTS = ("empty", "group", "member", "gear")
EMPTY, GROUP, MEMBER, GEAR = range(4)

WARRANTS = ("empty", "owner", "manager", "administrator")
OWNER, MANAGER, ADMINISTRATOR = range(1, 4)

OPERATIONS = ("listen", "tune", "transmit", "turn", "power", "settings")  # 6 and 7 are the club's, and have no name
OPERATION_COUNT = 8
ALL_OPERATIONS = 255

# The picture of a sheet: sorts, groups of each object, warrants and rules.
PICTURE_BYTES = 960
ROWS_AT, ROW_BYTES = 64, 8
WARRANTS_AT, WARRANT_BYTES = 576, 4
RULES_AT, RULE_BYTES = 704, 4
RULE_IN_USE = 1


class Refusal(NamedTuple):
    """A refusal: its word, and one sentence on it."""
    word: str
    sentence: str


DONE = 0
TORN = 1
OWN_GAIN = 10
DAMAGED = 13
SHORT_CARD = 14

REFUSALS: Dict[int, Refusal] = {
    1: Refusal("torn", "these bytes are no whole record"),
    2: Refusal("unknown", "there is no such kind of request"),
    3: Refusal("misfit", "the record has not the length of its kind"),
    4: Refusal("stranger", "the sender is no member"),
    5: Refusal("off the sheet", "a number of the request is outside its table"),
    6: Refusal("absent", "what the request names is not there"),
    7: Refusal("wrong sort", "what the request names is of another sort than is needed there"),
    8: Refusal("already so", "the place is in use, or the membership is as the request would make it"),
    9: Refusal("no authority", "the sender has no authority for this"),
    10: Refusal("own gain", "a request may not give its sender what he lacks"),
    11: Refusal("hand-over", "a PUT may not make a member own or manage what its sender does not own"),
    12: Refusal("orphan", "no object may be left without an owner"),
    DAMAGED: Refusal("damaged", "it is no card"),
    SHORT_CARD: Refusal("short card", "the card has not enough room for the sheet"),
}
LAST_REQUEST_REFUSAL = 12


class Answer(NamedTuple):
    """What the board says to a record: a code, and the rule that it cites."""
    code: int
    cited: int


def word_of(code: int) -> str:
    """The word for a code."""
    return "done" if code == DONE else REFUSALS[code].word


def sort_in_words(sort: int) -> str:
    """What an object of a sort is."""
    return SORTS[sort] if sort == GEAR else f"a {SORTS[sort]}"


def operation_name(operation: int) -> str:
    """An operation by its name, or by its number where it has none."""
    return OPERATIONS[operation] if operation < len(OPERATIONS) else str(operation)


def operation_number(word: str) -> Optional[int]:
    """The number of an operation's name; None if it is no such name."""
    return OPERATIONS.index(word) if word in OPERATIONS else None


def members_of(bits: int) -> Tuple[int, ...]:
    """The numbers in a set, lowest first."""
    return tuple(n for n in range(bits.bit_length()) if bits >> n & 1)


def record(kind: str, *fields: int) -> bytes:
    """A record: length and kind in two bytes each, low byte first, then a byte for each field."""
    length, number = HEAD + len(fields), 1 + KINDS.index(kind)
    return length.to_bytes(2, "little") + number.to_bytes(2, "little") + bytes(fields)


def length_field(data: bytes) -> int:
    """The length that the first two bytes give."""
    return int.from_bytes(data[:2], "little")


def framed(data: bytes) -> Optional[int]:
    """How many bytes the record at the start of the data has; None if it is torn."""
    length = length_field(data)
    return length if HEAD <= length <= len(data) else None


def kind_of(data: bytes) -> Optional[str]:
    """The kind of a whole record, whatever its length; None if it is unknown."""
    number = int.from_bytes(data[2:HEAD], "little")
    return KINDS[number - 1] if 1 <= number <= len(KINDS) else None


def taken_apart(data: bytes) -> Optional[Tuple[str, Dict[str, int]]]:
    """The kind and the fields of a record that has both; None for any other bytes."""
    kind = kind_of(data)
    if framed(data) != len(data) or kind is None or len(data) != HEAD + len(FIELDS[kind]):
        return None
    return kind, dict(zip(FIELDS[kind], data[HEAD:]))
