"""Planted errors: what the program would say if it read C by a wrong rule. Each is what it says of a text that is
changed so, in place of what it says of the text; or a changed layout. Each must be found, by the comparison that finds
errors of the program, and it is said how soon."""

import re
from dataclasses import replace

import declaration
from signature import SIZES

TRIED = 40


def int_for_long_long(text):
    """`long long` has 4 bytes."""
    return re.sub(rb"\blong\s+long\b(\s+int\b)?", b"int", text)


def int_for_long(text):
    """`long` has 4 bytes, as on Windows."""
    return re.sub(rb"(?<!long )\blong\b(?!\s+long)(\s+int\b)?", b"int", text)


def signed_size(text):
    """`size_t` has a sign."""
    return re.sub(rb"\bsize_t\b", b"intptr_t", text)


def signed_char(text):
    """`unsigned char` has a sign."""
    return re.sub(rb"\bunsigned\s+char\b", b"signed char", text)


def unsigned_is_short(text):
    """`unsigned` alone is a short."""
    return re.sub(rb"\bunsigned\b(?!\s+(char|short|int|long|__int128))", b"unsigned short", text)


def innermost_first(text):
    """The first bracket is the innermost array."""
    return re.sub(rb"(\[\s*\d+\s*\]\s*){2,}", lambda found: b"".join(
        b"[%s]" % count for count in reversed(re.findall(rb"\d+", found[0]))), text)


def star_in_a_member(text):
    """A star behind a member's type is passed over."""
    return re.sub(rb"\bfloat\s*\*\s*(?=\w+\s*(;|\[))", b"float ", text)


def a_count_more(text):
    """An array has one element more than its count."""
    return re.sub(rb"\[\s*(\d+)\s*\]", lambda found: b"[%d]" % (int(found[1]) + 1), text)


TYPES = [int_for_long_long, int_for_long, signed_size, signed_char, unsigned_is_short, innermost_first,
         star_in_a_member, a_count_more]


def no_dots(text):
    """Dots behind the parameters are passed over."""
    return re.sub(rb",\s*\.\.\.", b"", text)


def char_without_sign(text):
    """`char` without a sign is taken."""
    return re.sub(rb"(?<!signed )\bchar\b(?!\s*\*)", b"signed char", text)


def void_later(text):
    """`void` is taken as second parameter."""
    return re.sub(rb",\s*void\s*\)", b")", text)


def without_first_blank(text):
    """Offsets are counted without a blank."""
    return text.replace(b" ", b"", 1) if text.startswith(b" ") else text.replace(b"  ", b" ", 1)


def comments(text):
    """Comments are blanks."""
    return re.sub(rb"/\*\*/", b" ", text)


def const_anywhere(text):
    """`const` may stand behind what it is of."""
    return re.sub(rb"\bconst\b", b"     ", text)


def one_less_deep(text):
    """A struct may have 14 others around it, and no more."""
    opened = [found.end() for found in re.finditer(rb"\bstruct\s*\{", text)]
    closed = [found.end() for found in re.finditer(rb"\}", text)]
    for at in opened:
        if sum(each <= at for each in opened) - sum(each <= at for each in closed) == 16:
            return text[:at] + b"struct{int a;}a;" + text[at:]
    return text


def last_of_many_bytes(text):
    """Of parameters of more than 8,192 bytes together the last one is left out."""
    try:
        sizes = [declaration.size_of(kind)[0] for kind in declaration.read(text).signature().arguments]
    except declaration.Refused:
        return text
    deep, commas = 0, []
    for at, letter in enumerate(text):
        deep += (letter in b"({[") - (letter in b")}]")
        commas += [at] if letter in b"," and deep == 1 else []
    if sum(sizes) <= 8192 or not commas or b"..." in text:
        return text
    return text[:commas[-1]] + b")"


READINGS = [no_dots, char_without_sign, void_later, without_first_blank, comments, const_anywhere, one_less_deep,
            last_of_many_bytes]


def takes_what_is_refused(text):
    """`void` is taken as second parameter, where C refuses it."""
    return void_later(text)


def packed(layout):
    """The last leaf stands right behind the one before it."""
    if len(layout.offsets) < 2:
        return layout
    return replace(layout, offsets=(*layout.offsets[:-1], layout.offsets[-2] + SIZES[layout.leaves[-2]]))


def not_rounded(layout):
    """A struct ends where its last member does."""
    return replace(layout, size=layout.offsets[-1] + SIZES[layout.leaves[-1]])


def wide_at_8(layout):
    """Integers of 128 bits are aligned to 8 bytes."""
    return replace(layout, align=min(layout.align, 8))


def first_leaf_at_its_size(layout):
    """The first member stands behind an empty one."""
    return replace(layout, offsets=(1, *layout.offsets[1:])) if len(layout.offsets) > 1 else layout


LAYOUTS = [packed, not_rounded, wide_at_8, first_leaf_at_its_size]
