"""Answers in words, with their numbers."""

from desk import numbers
from desk.club import Club, Rule, Warrant
from desk.numbers import Answer


def operations_in_words(operations: int) -> str:
    """A set of operations, by name where they have one."""
    if operations == numbers.ALL_OPERATIONS:
        return "all operations"
    return ", ".join(numbers.operation_name(k) for k in numbers.members_of(operations)) or "no operation"


def warrant_in_words(club: Club, warrant: Warrant) -> str:
    """What a warrant makes its holder, without his name."""
    over = f" over {club.called(warrant.b)}" if warrant.kind == numbers.ADMINISTRATOR else ""
    return f"{numbers.WARRANTS[warrant.kind]} of {club.called(warrant.a)}{over}"


def rule_in_words(club: Club, rule: Rule) -> str:
    """The groups of a rule."""
    return f"{club.called(rule.users)} on {club.called(rule.gear)}"


def at_place(table, place: int):
    """What stands at a place of the sheet."""
    return next(entry for entry in table if entry.place == place)


def deed(before: Club, after: Club, record: bytes, cited: int) -> str:
    """What an accepted record did, on the sheets before and after it."""
    kind, fields = numbers.taken_apart(record)
    called = after.called
    if kind == "MAKE":
        place, sort, name = fields["place"], fields["sort"], after.names.name(fields["place"])
        made = f"{numbers.SORTS[sort]} {name}" if name else numbers.sort_in_words(sort)
        return f"{made} is object {place} in {called(fields['group'])}"
    if kind == "PUT":
        return f"{called(fields['object'])} is in {called(fields['group'])}"
    if kind == "TAKE":
        return f"{called(fields['object'])} is no longer directly in {called(fields['group'])}"
    if kind == "APPOINT":
        warrant = at_place(after.warrants(), fields["place"])
        return f"{called(warrant.holder)} is {warrant_in_words(after, warrant)} (warrant {warrant.place})"
    if kind == "DISMISS":
        warrant = at_place(before.warrants(), fields["place"])
        return f"{called(warrant.holder)} is dismissed as {warrant_in_words(after, warrant)} (warrant {warrant.place})"
    return rule_deed(before, after, kind, fields, cited)


def rule_deed(before: Club, after: Club, kind: str, fields, cited: int) -> str:
    """The same for the three kinds that have to do with rules."""
    if kind == "GRANT":
        rule = at_place(after.rules(), fields["place"])
        return f"{rule_in_words(after, rule)}: {operations_in_words(rule.operations)} (rule {rule.place})"
    if kind == "WITHDRAW":
        rule = at_place(before.rules(), fields["place"])
        return f"rule {rule.place} is withdrawn: {rule_in_words(after, rule)}: {operations_in_words(rule.operations)}"
    return rule_in_words(after, at_place(after.rules(), cited))


def done_in_words(before: Club, after: Club, record: bytes, cited: int) -> str:
    """An accepted record in words."""
    by = "" if cited == numbers.NOTHING_CITED else f" by rule {cited}"
    return f"done{by}: {deed(before, after, record, cited)}"


def refusal_in_words(code: int) -> str:
    """A refusal: its number, its word, its sentence."""
    word, sentence = numbers.REFUSALS[code]
    return f"refused, {code} {word}: {sentence}"


def answer_in_words(before: Club, after: Club, record: bytes, answer: Answer) -> str:
    """The answer to a record, on the sheets before and after it."""
    if answer.code == numbers.DONE:
        return done_in_words(before, after, record, answer.cited)
    return refusal_in_words(answer.code)


def gain_in_words(club: Club, record: bytes) -> str:
    """What a record that is refused for own gain would give its sender, as far as the library tells."""
    gained = club.library.gain(club.picture, record)
    if gained is None:
        return "it would give its sender something to own, to manage or to administer"
    gear, operation = gained
    sender = club.called(record[numbers.HEAD])
    return f"it would permit {sender} to use {club.called(gear)}: {numbers.operation_name(operation)}"
