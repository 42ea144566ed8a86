"""What the command `header` tells of a header's functions: lines for people, and JSON for programs."""

from collections.abc import Iterable, Iterator, Sequence

from .headers import Compiler, Entry, Function
from .library import HIDDEN, Call, Part, Piece


def piece_text(piece: Piece) -> str:
    """A piece as the program's `place` writes one: a0:4+4 has 4 bytes, from byte 4 of the value on."""
    at = f"stack{piece.number}" if piece.place == "stack" else piece.place
    return f"ref {at} copy {piece.offset}" if piece.is_address else f"{at}:{piece.offset}+{piece.length}"


def place_lines(call: Call, names: Sequence[str]) -> Iterator[str]:
    """A line for each value: its name and its pieces."""
    found: dict[Part, list[str]] = {}
    for piece in call.pieces:
        found.setdefault(piece.part, []).append(piece_text(piece))
    names = [name or str(i) for i, name in enumerate(names)]
    width = max(map(len, [*names, "result"]))
    for part, texts in found.items():
        name = part if isinstance(part, str) else names[part]
        yield f"{name if part != HIDDEN else 'buffer':{width}}  {' '.join(texts)}"


def lines(entries: Iterable[Entry]) -> Iterator[str]:
    """The functions that are read, each with its places on each target; then the others, each with its reason."""
    unread: list[Entry] = []
    for entry in entries:
        if entry.reasons():
            unread.append(entry)
        if not entry.is_read:
            continue
        yield f"{entry.first.declaration};"
        for target, function in entry.by_target.items():
            if function.is_read:
                call = function.place()
                yield f"  {target}, frame of {call.frame} bytes"
                yield from (f"    {line}" for line in place_lines(call, function.names))
    for entry in unread:
        for reason, targets in entry.reasons().items():
            on = "" if len(targets) == len(entry.by_target) else f" on {', '.join(targets)}"
            yield f"not read{on}: {entry.name}: {reason}"


def _on_target(function: Function) -> dict:
    if not function.is_read:
        return {"reason": function.reason}
    call = function.place()
    return {"result": function.nodes[0], "arguments": function.nodes[1:], "fixed": function.fixed, "need": call.need,
            "frame": call.frame, "vectors": call.vectors, "pieces": [piece._asdict() for piece in call.pieces]}


def as_json(headers: Sequence[str], compilers: Iterable[Compiler], entries: Iterable[Entry]) -> dict:
    """All that is known of the functions. Types are nodes, as place_nodes takes them, a pair being an array."""
    return {"version": 1, "headers": list(headers),
            "compilers": {each.target: {"words": each.words, "note": each.note} for each in compilers},
            "functions": [{"name": entry.name, "declaration": entry.first.declaration,
                           "file": entry.first.chunk.owner, "line": entry.first.chunk.first,
                           "parameters": entry.first.names, "variadic": entry.first.is_variadic,
                           "targets": {target: _on_target(each) for target, each in entry.by_target.items()}}
                          for entry in entries]}
