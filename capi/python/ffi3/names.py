"""The names that a prototype gives its parameters.

    from ffi3 import names
    names.parameters("ssize_t read(int fd, void *buf, size_t)")     # ("fd", "buf", "")

The library reads what a text declares, and keeps no names: they say nothing of where a value stands. Of a text that it
reads they are found here, by where a name can stand in C; of any other text nothing is said.
"""

import re
from itertools import takewhile

_TOKEN = re.compile(r"/\*.*?\*/|//[^\n]*|\s+|(\w+|\.\.\.|\"(?:[^\"\\]|\\.)*\"|.)", re.S | re.A)
_BLANK = {"const", "volatile", "restrict", "extern", "static", "inline", "register", "_Noreturn", "__const", "__const__",
          "__volatile", "__volatile__", "__restrict", "__restrict__", "__inline", "__inline__", "__extension__"}
_WITH_BRACKET = {"__attribute__", "__attribute", "__asm__", "__asm", "asm"}
# Words of which several may stand for one type.
_WORDS = {"signed", "unsigned", "short", "long", "int", "char", "float", "double", "__int128", "_Complex", "complex",
          "__signed", "__signed__", "__complex", "__complex__", "__int128__"}
_TAGGED = {"struct", "union", "enum"}
_OPEN, _CLOSE = "([{", ")]}"


def _past(words: list[str], at: int) -> int:
    """Where the text goes on behind the bracket that opens there."""
    depth = 0
    while at < len(words):
        depth += (words[at] in _OPEN) - (words[at] in _CLOSE)
        at += 1
        if depth == 0:
            break
    return at


def _words(text: str) -> list[str]:
    """The tokens that say something of a type or a name."""
    found = [token for match in _TOKEN.finditer(text) if (token := match[1])]
    kept, at = [], 0
    while at < len(found):
        if found[at] in _WITH_BRACKET:
            at = _past(found, at + 1)
        else:
            kept += [found[at]] * (found[at] not in _BLANK)
            at += 1
    return kept


def _behind_base(words: list[str], at: int) -> int:
    if words[at:at + 1] and words[at] in _TAGGED:
        at += 1
        at += words[at:at + 1] != ["{"]
        return _past(words, at) if words[at:at + 1] == ["{"] else at
    if several := len(list(takewhile(_WORDS.__contains__, words[at:]))):
        return at + several
    return at + 1


def _is_name(words: list[str], at: int) -> bool:
    return at < len(words) and (words[at][0].isalpha() or words[at][0] == "_")


def _name_at(words: list[str], at: int) -> int:
    """Where the name stands in a declarator that begins there, or would."""
    while words[at:at + 1] == ["*"] or words[at:at + 1] == ["("] and (
            words[at + 1:at + 2] in (["*"], ["("]) or _is_name(words, at + 1)):
        at += 1
    return at


def parameters(declaration: str | bytes) -> tuple[str, ...]:
    """The name of each parameter, and of each type behind the dots; "" of one that has none."""
    words = _words(declaration if isinstance(declaration, str) else declaration.decode())
    at = _name_at(words, _behind_base(words, 0)) + 1
    while words[at:at + 1] == [")"]:
        at += 1
    listed, found, at = words[at + 1:_past(words, at) - 1], [], 0
    if listed in ([], ["void"]):
        return ()
    while at < len(listed):
        named = _behind_base(listed, at)
        # of brackets that no star follows the base is a function's, whose list they open
        if listed[named:named + 1] == ["("] and listed[named + 1:named + 2] not in (["*"], ["("]):
            named = len(listed)
        named = _name_at(listed, named)
        if listed[at] != "...":
            found.append(listed[named] if _is_name(listed, named) else "")
        while at < len(listed) and listed[at] != ",":
            at = _past(listed, at) if listed[at] in _OPEN else at + 1
        at += 1
    return tuple(found)


def names_or_numbers(declaration: str | bytes, count: int) -> tuple[str, ...]:
    """What so many arguments are called, as the library counts them: by their names, or else by their numbers."""
    found = parameters(declaration)
    named = found if len(found) == count else ()
    return tuple(name or str(i) for i, name in enumerate(named or [""] * count))
