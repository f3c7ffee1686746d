"""From records to words: lines that give the same bytes back when they are run from the same club."""

from typing import Callable, Dict, Iterator, List

from desk import grammar, numbers
from desk.club import Club
from desk.faults import Fault
from desk.names import plain_name
from desk.resolving import record_of
from desk.running import Reading

BYTES_ON_A_LINE = 24
SHORTEST_RUN = 4  # as many equal bytes are written HH*N


def referred(club: Club, number: int) -> str:
    """An object by its name, or by its number."""
    return club.names.name(number) or str(number)


def listed(operations: int) -> str:
    """A set of operations as a request gives it."""
    if operations == numbers.ALL_OPERATIONS:
        return "all"
    return " ".join(numbers.operation_name(k) for k in numbers.members_of(operations))


def make_texts(club: Club, fields) -> Iterator[str]:
    """A MAKE in words: by name, for one that is done, and by number."""
    if fields["sort"] in (numbers.GROUP, numbers.MEMBER, numbers.GEAR):
        sort, group = numbers.SORTS[fields["sort"]], referred(club, fields["group"])
        name = plain_name(fields["sort"], fields["place"])
        if club.copy().judge(numbers.record("MAKE", *fields.values())).code == numbers.DONE:
            yield f"MAKE {sort} {name} in {group}"
            yield f"MAKE {sort} {name} in {group} = {fields['place']}"
        yield f"MAKE {sort} {fields['place']} in {group}"


def put_texts(club: Club, fields) -> Iterator[str]:
    """A PUT in words."""
    yield f"PUT {referred(club, fields['object'])} into {referred(club, fields['group'])}"


def take_texts(club: Club, fields) -> Iterator[str]:
    """A TAKE in words."""
    yield f"TAKE {referred(club, fields['object'])} from {referred(club, fields['group'])}"


def post_text(club: Club, kind: int, holder: int, a: int, b: int) -> str:
    """A post as a request names it."""
    over = f" over {referred(club, b)}" if kind == numbers.ADMINISTRATOR else ""
    return f"{referred(club, holder)} {numbers.WARRANTS[kind]} of {referred(club, a)}{over}"


def appoint_texts(club: Club, fields) -> Iterator[str]:
    """An APPOINT in words: at the lowest free place, or at its own."""
    if 1 <= fields["kind"] < len(numbers.WARRANTS):
        text = "APPOINT " + post_text(club, fields["kind"], fields["holder"], fields["A"], fields["B"])
        yield text
        yield f"{text} = {fields['place']}"


def dismiss_texts(club: Club, fields) -> Iterator[str]:
    """A DISMISS in words: by the post, or by its place."""
    for warrant in club.warrants():
        if warrant.place == fields["place"]:
            yield "DISMISS " + post_text(club, *warrant[1:])
    yield f"DISMISS warrant {fields['place']}"


def grant_texts(club: Club, fields) -> Iterator[str]:
    """A GRANT in words: at the lowest free place, or at its own."""
    text = f"GRANT {referred(club, fields['U'])} {referred(club, fields['T'])} {listed(fields['operations'])}"
    yield text
    yield f"{text} = {fields['place']}"


def withdraw_texts(club: Club, fields) -> Iterator[str]:
    """A WITHDRAW in words: by the groups, with the operations where it needs them, or by its place."""
    for rule in club.rules():
        if rule.place == fields["place"]:
            groups = f"WITHDRAW {referred(club, rule.users)} {referred(club, rule.gear)}"
            yield groups
            yield f"{groups} {listed(rule.operations)}"
    yield f"WITHDRAW rule {fields['place']}"


def use_texts(club: Club, fields) -> Iterator[str]:
    """A USE in words."""
    yield f"USE {referred(club, fields['gear'])} {numbers.operation_name(fields['operation'])}"


TEXTS: Dict[str, Callable[[Club, Dict[str, int]], Iterator[str]]] = {
    "MAKE": make_texts, "PUT": put_texts, "TAKE": take_texts, "APPOINT": appoint_texts,
    "DISMISS": dismiss_texts, "GRANT": grant_texts, "WITHDRAW": withdraw_texts, "USE": use_texts,
}


def gives_back(club: Club, text: str, record: bytes) -> bool:
    """True if a line is read and gives this very record on the club as it is now."""
    try:
        return record_of(club, grammar.line_in(1, text).request) == record
    except Fault:
        return False


def record_in_words(club: Club, record: bytes) -> List[str]:
    """The lines of a record on the club as it is now: in words, in numbers, or as bytes."""
    parts = numbers.taken_apart(record)
    if parts is None:
        return bytes_lines(record)
    kind, fields = parts
    sender = referred(club, fields["sender"])
    for text in TEXTS[kind](club, fields):
        if gives_back(club, f"{sender} {text}", record):
            return [f"{sender} {text}"]
    return [" ".join([kind, *map(str, fields.values())])]


def bytes_lines(data: bytes) -> List[str]:
    """Bytes as lines, equal ones behind each other told by their count."""
    words, at = [], 0
    while at < len(data):
        end = at + 1
        while end < len(data) and data[end] == data[at]:
            end += 1
        hexadecimal = f"{data[at]:02X}"
        words += [f"{hexadecimal}*{end - at}"] if end - at >= SHORTEST_RUN else [hexadecimal] * (end - at)
        at = end
    starts = range(0, len(words), BYTES_ON_A_LINE)
    return [" ".join(["bytes", *words[start:start + BYTES_ON_A_LINE]]) for start in starts]


def in_words(club: Club, data: bytes) -> Iterator[str]:
    """The lines of all records, each as it stands on the club then; bytes from a torn place on as they are."""
    reading, at = Reading(club, "records"), 0
    while at < len(data):
        length = numbers.framed(data[at:at + numbers.length_field(data[at:at + 2])])
        if length is None:
            yield from bytes_lines(data[at:])
            return
        record = data[at:at + length]
        yield from record_in_words(club, record)
        for _ in reading.take(grammar.Line(1, "", grammar.Exact(record))):
            pass
        at += length


def records_of(source: str, items: List[grammar.Line], begin: Callable[[], Club]) -> List[bytes]:
    """The bytes of each line, once. A club is begun only where a line in words needs one."""
    if all(isinstance(item.request, grammar.Exact) for item in items):
        return [item.request.data for item in items]
    records, reading = [], Reading(begin(), source)
    for item in items:
        records.append(reading.bytes_of(item))
        for _ in reading.take(item):
            pass
    return records


def in_bytes(source: str, items: List[grammar.Line], begin: Callable[[], Club]) -> bytes:
    """The records of all lines, one behind the other."""
    return b"".join(record * item.times for record, item in zip(records_of(source, items, begin), items))
