"""One page of HTML that shows every function of a header, and where its arguments and its result stand on each target.

    from ffi3 import headers, page
    entries = headers.survey("zlib.h", map(headers.compiler_for, headers.COMPILERS))
    Path("zlib.html").write_text(page.html("zlib.h", entries))

The page has all that it needs in itself: it works from the disk, without a server or a network.
"""

import json
from collections.abc import Iterable, Mapping, Sequence
from pathlib import Path

from . import rules
from .drawing import COLOURS, RESULT_COLOUR, counted, ink, label, register_rows, stack_rows
from .headers import Entry, Function
from .library import HIDDEN, RESULT, TARGETS, Part, Piece

TEMPLATE = Path(__file__).with_name("page.html")
MOST_ROWS = 40  # of a stack; what stands above is told in one line


def _box(piece: Piece, first: int, count: int, at: int, rule: str) -> list:
    """A box of a row, as the page's script has it: the part, its first byte in the row, how many, the first byte of the
    value or -1 for an address, and the rule."""
    return [piece.part, at, count, -1 if piece.is_address else first, rule]


def _registers(pieces: Sequence[Piece], rule: Mapping[Part, str]) -> list:
    return [(f"{name} high" if first else name,
             [_box(piece, value, count, 0, rule[piece.part]) for piece, count, value in boxes])
            for name, rows in register_rows(pieces).items() for first, boxes in enumerate(rows)]


def _stack(rows: Mapping[int, Sequence[tuple[int, int, Piece, int]]], rule: Mapping[Part, str]) -> list:
    return [[8 * row, [_box(piece, value, count, at, rule[piece.part]) for at, count, piece, value in rows[row]]]
            for row in sorted(rows)[:MOST_ROWS]]


def _on_target(function: Function, known: dict[tuple, dict]) -> dict:
    """What the page's script draws of a function on one target; known has what it draws of those with the same types.
    """
    if not function.is_read:
        return {"reason": function.reason}
    key = function.target, function.nodes, function.fixed
    if key not in known:
        known[key] = _placed(function)
    return known[key]


def _placed(function: Function) -> dict:
    call = function.place()
    kinds = {part: function.layout(part) for part in (RESULT, *range(len(function.arguments)))}
    kinds[HIDDEN] = kinds[RESULT]
    rule = {part: rules.rule_of(function.target, call, part, kinds[part])
            for part in dict.fromkeys(piece.part for piece in call.pieces)}
    sizes = {part: kind.size for part, kind in kinds.items()}
    rows = stack_rows(call, sizes) if call.frame else {}
    passed, returned = call.pieces[:call.passed], call.pieces[call.passed:]
    return {"passed": _registers(passed, rule), "frame": call.frame, "stack": _stack(rows, rule),
            "more": len(rows) > MOST_ROWS, "returned": _registers(returned, rule),
            "sizes": [sizes[i] for i in range(len(function.arguments))], "result": sizes[RESULT]}


def _told(entry: Entry, known: dict[tuple, dict]) -> dict:
    function = entry.first
    longest = max(entry.by_target.values(), key=lambda each: len(each.arguments))  # a header may have more on one target
    count = range(len(longest.arguments))
    targets = {target: _on_target(each, known) for target, each in entry.by_target.items()}
    read = [told for told in targets.values() if "sizes" in told]
    sizes: dict[Part, str] = {}
    for i in count:
        if found := [told["sizes"][i] for told in read if i < len(told["sizes"])]:
            sizes[i] = counted(found)
    if any(told["result"] for told in read):
        sizes[RESULT] = counted(told["result"] for told in read)
    return {"name": entry.name, "declaration": function.declaration, "variadic": function.is_variadic,
            "at": f"{function.chunk.owner}:{function.chunk.first}",
            "names": [label(longest.names, i) or f"argument {i}" for i in count],
            "sizes": sizes, "targets": targets}


def data(title: str, entries: Iterable[Entry], notes: Sequence[str] = (), link: str = "") -> dict:
    """All that the page shows: title, functions, colours, rules by target, notes on compilers; a link to RULES.md, or
    none."""
    known: dict[tuple, dict] = {}
    told = [_told(entry, known) for entry in sorted(entries, key=lambda entry: entry.name.lower())]
    shown = [target for target in TARGETS if any(target in each["targets"] for each in told)]
    return {"title": title, "functions": told, "notes": list(notes), "link": link, "colours": COLOURS,
            "inks": [ink(i) for i in range(len(COLOURS))], "result": RESULT_COLOUR,
            "targets": {target: {"section": rules.SECTIONS[target][0], "name": rules.SECTIONS[target][1],
                                 "rules": rules.RULES[target]} for target in shown}}


def html(title: str, entries: Iterable[Entry], notes: Sequence[str] = (), link: str = "") -> str:
    """The page."""
    text = json.dumps(data(title, entries, notes, link), separators=(",", ":"))
    # In a script of a page no text may end it, or begin a comment; `\u003c` is the same to JSON.
    return TEMPLATE.read_text("utf-8").replace('"DATA"', text.replace("<", "\\u003c"))
