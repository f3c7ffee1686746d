"""The club as a picture: DOT, and SVG by graphviz where that is installed."""

import subprocess
from typing import List

from desk import numbers
from desk.answers import operations_in_words
from desk.club import Club
from desk.faults import Fault
from desk.files import write_file

HEAD = ("digraph club {", '  rankdir="LR"; nodesep="0.2"; ranksep="0.5";',
        '  node [fontname="Helvetica", fontsize="12", height="0.35"];', '  edge [arrowsize="0.7"];')
SHAPES = {numbers.GROUP: 'shape="box", style="filled", fillcolor="gray92"', numbers.MEMBER: 'shape="ellipse"',
          numbers.GEAR: 'shape="hexagon"'}
CIRCLE = 'color="red", penwidth="2"'
POST_NODE = 'shape="plaintext", fontcolor="gray30", fontsize="10", height="0.2"'
POST = 'style="dashed", color="gray40"'
RULE_NODE = 'shape="note", color="blue", fontcolor="blue", fontsize="10"'
RULE = 'color="blue", penwidth="1.5"'
SECONDS = 60


def quoted(text: str) -> str:
    """A text as DOT quotes it."""
    return '"' + text.replace("\\", "\\\\").replace('"', '\\"') + '"'


def node(number: int) -> str:
    """The node of an object."""
    return f"n{number}"


def objects_drawn(club: Club) -> List[str]:
    """Groups as boxes, members as ellipses, gear as hexagons."""
    return [f"  {node(which)} [label={quoted(club.called(which))}, {SHAPES[club.sort(which)]}];"
            for which in club.objects()]


def memberships_drawn(club: Club) -> List[str]:
    """An edge from each object to each group that it is directly in, coloured where it is part of a circle."""
    lines = []
    for which in club.objects():
        for group in club.direct_groups(which):
            is_circle = which in club.set_of("above", group)
            lines.append(f"  {node(which)} -> {node(group)}{f' [{CIRCLE}]' if is_circle else ''};")
    return lines


def posts_drawn(club: Club) -> List[str]:
    """A dashed way from each holder, by the word for his warrant, to its group; of an administrator to both groups."""
    lines = []
    for warrant in club.warrants():
        here = f"w{warrant.place}"
        lines.append(f"  {here} [label={quoted(numbers.WARRANTS[warrant.kind])}, {POST_NODE}];")
        lines.append(f'  {node(warrant.holder)} -> {here} [{POST}, arrowhead="none"];')
        groups = (warrant.a, warrant.b) if warrant.kind == numbers.ADMINISTRATOR else (warrant.a,)
        lines += [f"  {here} -> {node(group)} [{POST}];" for group in groups]
    return lines


def rules_drawn(club: Club) -> List[str]:
    """A way from the users of each rule, by its operations, to its gear."""
    lines = []
    for rule in club.rules():
        here = f"r{rule.place}"
        label = f"rule {rule.place}: {operations_in_words(rule.operations)}"
        lines.append(f"  {here} [label={quoted(label)}, {RULE_NODE}];")
        lines.append(f'  {node(rule.users)} -> {here} [{RULE}, arrowhead="none"];')
        lines.append(f"  {here} -> {node(rule.gear)} [{RULE}];")
    return lines


def dot(club: Club) -> str:
    """The club in DOT."""
    parts = (HEAD, objects_drawn(club), memberships_drawn(club), posts_drawn(club), rules_drawn(club), ("}",))
    return "\n".join(line for part in parts for line in part) + "\n"


def write_svg(club: Club, name: str) -> None:
    """Writes the club as SVG."""
    try:
        done = subprocess.run(["dot", "-Tsvg"], input=dot(club).encode("utf-8"), capture_output=True, timeout=SECONDS,
                              check=False)
    except FileNotFoundError:
        raise Fault("graphviz is not installed, so there is no SVG; `desk draw` without --svg writes DOT") from None
    except (OSError, subprocess.TimeoutExpired) as error:
        raise Fault(f"graphviz can't be run: {error}") from None
    if done.returncode != 0:
        said = done.stderr.decode("utf-8", "replace").strip()[:200]
        raise Fault(f"graphviz ended with the status {done.returncode}: {said}")
    write_file(name, done.stdout)
