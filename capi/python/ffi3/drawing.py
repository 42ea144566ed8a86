"""Drawings of registers and stack, each argument in a colour of its own.

    from ffi3 import drawing, headers
    drawing.svg("double f(struct { int i; float x; } a)")           # the text of an SVG, of the five targets
    [entry] = headers.survey("zlib.h", [headers.compiler_for("riscv")], ["crc32"])
    drawing.drawn(drawing.of_entry(entry))
"""

import textwrap
from collections.abc import Iterable, Iterator, Mapping, Sequence
from typing import TYPE_CHECKING, NamedTuple

from .library import HIDDEN, RESULT, TARGETS, Call, Part, Piece, layout, place
from .names import names_or_numbers

if TYPE_CHECKING:
    from .headers import Entry

# Colours that differ also for those who see few of them (Okabe and Ito), then the same paler.
COLOURS = ("#56B4E9", "#E69F00", "#009E73", "#F0E442", "#CC79A7", "#D55E00", "#0072B2", "#A3D5F2", "#F3CC80",
           "#80CEB9", "#F8F2A1", "#E6BCD3", "#EAAF80", "#80B9D9")
RESULT_COLOUR = "#BBBBBB"
_BYTE, _ROW, _NAME, _GAP = 18, 24, 62, 34
_WIDTH = _NAME + 8 * _BYTE
_LEAST_WIDTH = 480
_INK = "#111111"


class Subject(NamedTuple):
    """What is drawn: a function, its arguments' names, and on each target the call and the sizes of its values."""

    title: str
    names: tuple[str, ...]
    calls: dict[str, Call]
    sizes: dict[str, dict[Part, int]]


def of_text(declaration: str | bytes, targets: Iterable[str] = TARGETS) -> Subject:
    """The function that a text declares, its arguments by their names there, or else by their numbers."""
    calls = {target: place(target, declaration) for target in targets}
    sizes = {target: {i: layout(declaration, i, target).size for i in range(call.arguments)}
             | {HIDDEN: layout(declaration, target=target).size} for target, call in calls.items()}
    title = declaration if isinstance(declaration, str) else declaration.decode()
    count = max((call.arguments for call in calls.values()), default=0)
    return Subject(title, names_or_numbers(declaration, count), calls, sizes)


def of_entry(entry: "Entry") -> Subject:
    """A function of a header, on the targets on which it is read."""
    read = {target: each for target, each in entry.by_target.items() if each.is_read}
    sizes = {target: {i: each.layout(i).size for i in range(len(each.arguments))} | {HIDDEN: each.layout(RESULT).size}
             for target, each in read.items()}
    names = tuple(name or str(i) for i, name in enumerate(entry.first.names))
    return Subject(entry.first.declaration, names, {target: each.place() for target, each in read.items()}, sizes)


def colour(part: Part) -> str:
    """Of an argument its own; results and their buffers are grey."""
    return COLOURS[part % len(COLOURS)] if isinstance(part, int) else RESULT_COLOUR


def ink(part: Part) -> str:
    """The colour of what is written there: white on what is dark, by the brightness of red, green and blue."""
    red, green, blue = bytes.fromhex(colour(part)[1:])
    return "#FFFFFF" if 299 * red + 587 * green + 114 * blue < 100_000 else _INK


def label(names: tuple[str, ...], part: Part) -> str:
    """What a value is called in a drawing: an argument's name, result, or buffer."""
    return names[part] if isinstance(part, int) else "buffer" if part == HIDDEN else "result"


def counted(sizes: Iterable[int]) -> str:
    """The sizes of a value in words, each once: a long has 4 bytes on one target and 8 on another."""
    found = sorted(set(sizes))
    return f"{' or '.join(map(str, found))} byte{'s' * (found != [1])}"


def hidden_first(pieces: Sequence[Piece]) -> list[Piece]:
    """Pieces as a caller passes them: the address of a buffer for the result before the arguments."""
    return sorted(pieces, key=lambda piece: piece.part != HIDDEN)


def escaped(text: str) -> str:
    """A text as XML has it."""
    return text.replace("&", "&amp;").replace("<", "&lt;").replace(">", "&gt;").replace('"', "&quot;")


class _Drawing:
    """Lines of an SVG, and how far down they go."""

    def __init__(self, names: tuple[str, ...]):
        self.names = names
        self.lines: list[str] = []
        self.height = 0.0

    def text(self, x: float, y: float, words: str, size: int = 11, anchor: str = "start", style: str = "") -> None:
        self.lines.append(f'<text x="{x:g}" y="{y:g}" font-size="{size}" text-anchor="{anchor}"{style}>'
                          f"{escaped(words)}</text>")
        self.height = max(self.height, y + 6)

    def box(self, x: float, y: float, width: float, height: float, fill: str, dashes: str = "") -> None:
        self.lines.append(f'<rect x="{x:g}" y="{y:g}" width="{width:g}" height="{height:g}" fill="{fill}" '
                          f'stroke="#444444"{dashes}/>')
        self.height = max(self.height, y + height)

    def row(self, x: float, y: float, name: str) -> None:
        """Eight bytes with a name, none of which has anything."""
        self.text(x + _NAME - 6, y + 16, name, anchor="end", style=' font-family="monospace"')
        self.box(x + _NAME, y, 8 * _BYTE, _ROW - 4, "none", ' stroke-dasharray="2 2"')

    def bytes(self, x: float, y: float, first: int, count: int, piece: Piece, value: int) -> None:
        """So many of the eight bytes of a row, the lowest at the left: a piece's, from a byte of the value on."""
        words, style = self.words(piece, value, count), ink(piece.part)
        self.box(x + _NAME + first * _BYTE, y, count * _BYTE, _ROW - 4, colour(piece.part))
        self.text(x + _NAME + (first + count / 2) * _BYTE, y + 15, words, 10, "middle",
                  f' fill="{style}"' * (style != _INK))

    def words(self, piece: Piece, first: int, count: int) -> str:
        """What stands in a box, as much of it as has room."""
        name = label(self.names, piece.part)
        if piece.is_address:
            return f"@ of {name}" if len(name) < 18 else f"@ of {name[:16]}.."
        behind = f": {first}-{first + count - 1}" if count > 1 else ""
        most = max(1, (count * _BYTE - 3) // 6 - len(behind))
        return (name if len(name) <= most else name[:most - 2] + ".." if most > 3 else name[:most]) + behind


def _draw_registers(drawing: _Drawing, x: float, y: float, pieces: Sequence[Piece]) -> float:
    for name, rows in register_rows(pieces).items():
        for first, boxes in enumerate(rows):
            drawing.row(x, y, f"{name} high" if first else name)
            for piece, count, value in boxes:
                drawing.bytes(x, y, 0, count, piece, value)
            y += _ROW
    return y


def register_rows(pieces: Sequence[Piece]) -> dict[str, list[list[tuple[Piece, int, int]]]]:
    """The registers in rows of eight bytes, one or two each: the pieces that stand there, how many bytes they have in
    the row, and their first byte of the value."""
    found: dict[str, list[list[tuple[Piece, int, int]]]] = {}
    for piece in hidden_first(pieces):
        if piece.place != "stack":
            rows = found.setdefault(piece.place, [])
            for first in range(0, piece.length, 8):
                rows += [[]] * (first // 8 == len(rows))
                rows[first // 8] = [*rows[first // 8], (piece, min(8, piece.length - first), piece.offset + first)]
    return found


Stretch = tuple[int, Piece, int, int]


def stretches(call: Call, sizes: Mapping[Part, int]) -> Iterator[Stretch]:
    """What stands in the frame: of each stretch its first byte, piece, length and first byte of the value."""
    for piece in call.pieces[:call.passed]:
        if piece.place == "stack":
            yield piece.number, piece, piece.length, 0 if piece.is_address else piece.offset
        if piece.is_address:
            yield piece.offset, piece._replace(is_address=False), sizes[piece.part], 0


def stack_rows(call: Call, sizes: Mapping[Part, int]) -> dict[int, list[tuple[int, int, Piece, int]]]:
    """The frame in rows of eight bytes, those that have any: what begins at which byte, its length, its piece, and its
    first byte of the value."""
    used: dict[int, list[tuple[int, int, Piece, int]]] = {}
    for start, piece, length, value in sorted(stretches(call, sizes), key=lambda stretch: stretch[0]):
        at = start
        while at < start + length:
            count = min(8 - at % 8, start + length - at)
            used.setdefault(at // 8, []).append((at % 8, count, piece, value + at - start))
            at += count
    return used


def _draw_stack(drawing: _Drawing, x: float, y: float, call: Call, sizes: Mapping[Part, int]) -> float:
    """The frame from its lowest address, where the first stack argument stands. Long stretches are cut."""
    used, last = stack_rows(call, sizes), None
    for row in sorted(used):
        shown = sum(1 for other in used if other <= row)
        if shown > 24:
            drawing.text(x + _NAME, y + 14, f"and so on, to frame+{8 * max(used) + 7}")
            return y + _ROW
        if last is not None and row > last + 1:
            drawing.text(x + _NAME + 4 * _BYTE, y + 10, "...", anchor="middle")
            y += _ROW / 2
        drawing.row(x, y, f"+{8 * row}")
        for first, count, piece, value in used[row]:
            drawing.bytes(x, y, first, count, piece, value)
        y, last = y + _ROW, row
    return y


def _draw_target(drawing: _Drawing, x: float, y: float, target: str, call: Call, sizes: Mapping[Part, int]) -> None:
    passed, returned = call.pieces[:call.passed], call.pieces[call.passed:]
    drawing.text(x, y, target, 15, style=' font-weight="bold"')
    y = _draw_registers(drawing, x, y + 12, passed)
    if call.frame:
        drawing.text(x, y + 16, f"stack, {call.frame} bytes")
        y = _draw_stack(drawing, x, y + 24, call, sizes)
    if returned:
        drawing.text(x, y + 16, "and back")
        _draw_registers(drawing, x, y + 24, returned)


def _draw_legend(drawing: _Drawing, y: float, subject: Subject, width: float) -> float:
    """Each argument's colour, name and size, in as many rows as they take; where the last of these begins."""
    x = 16
    for i, name in enumerate(subject.names):
        words = f"{name if name != str(i) else f'argument {i}'}, {counted(each[i] for each in subject.sizes.values())}"
        wide = max(150, 30 + 6 * len(words))
        if x > 16 and x + wide > width:
            x, y = 16, y + 20
        drawing.box(x, y, 14, 14, colour(i))
        drawing.text(x + 19, y + 11, words)
        x += wide
    return y


def drawn(subject: Subject) -> str:
    """A drawing of registers and stack of each target, each argument in a colour of its own."""
    drawing, columns = _Drawing(subject.names), len(subject.calls)
    width = max(32 + columns * _WIDTH + (columns - 1) * _GAP, _LEAST_WIDTH)
    y = 28.0
    for line in textwrap.wrap(subject.title, int((width - 32) / 8.5)) or [""]:
        drawing.text(16, y, line, 14, style=' font-family="monospace"')
        y += 20
    y = _draw_legend(drawing, y - 4, subject, width)
    for column, (target, call) in enumerate(subject.calls.items()):
        _draw_target(drawing, 16 + column * (_WIDTH + _GAP), y + 48, target, call, subject.sizes[target])
    return "\n".join([
        f'<svg xmlns="http://www.w3.org/2000/svg" width="{width:g}" height="{drawing.height + 16:g}" '
        f'font-family="sans-serif" fill="{_INK}">',
        f'<rect width="{width:g}" height="{drawing.height + 16:g}" fill="#FFFFFF"/>',
        *drawing.lines, "</svg>", ""])


def svg(declaration: str | bytes, targets: Iterable[str] = TARGETS) -> str:
    """A drawing of the function that a text declares, on these targets."""
    return drawn(of_text(declaration, targets))
