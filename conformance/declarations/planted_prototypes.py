"""Planted errors: what the program would say if it read prototypes by a wrong rule. Each is what it says of a text that
is changed so, in place of what it says of the text. Each must be found by each compiler, and it is said how soon. Beside
them what would be said of names, in place of those that are found."""

import re

TRIED = 200


def star_left_out(text):
    """A star is passed over."""
    return text.replace("*", " ", 1)


def array_by_value(text):
    """An array is passed by value."""
    return re.sub(r"\[[^]]*\]", " ", text, count=1)


def no_sign(text):
    """`unsigned` says nothing."""
    return re.sub(r"\bunsigned\b", "int" if re.search(r"\bunsigned\b\s*(\w+\s*)?[,)]", text) else " ", text, count=1)


def short_long(text):
    """A `long` is a short."""
    return re.sub(r"\blong\b", "short", text, count=1)


def bool_of_int(text):
    """`bool` is an int."""
    return re.sub(r"\b(bool|_Bool)\b", "int", text)


def size_with_a_sign(text):
    """`ssize_t` and `ptrdiff_t` have no sign."""
    return re.sub(r"\b(ssize_t|ptrdiff_t)\b", "size_t", text)


def real_alone(text):
    """A complex number is its real part."""
    return re.sub(r"\b(_Complex|complex)\b", " ", text)


def least_is_fast(text):
    """A type of a least width has 64 bits."""
    return re.sub(r"\bint_least(8|16|32)_t\b", "int64_t", text)


def second_member_left_out(text):
    """A struct's second member of one declaration is left out."""
    return re.sub(r"(\{[^,;(]*),[^,;(]*([,;])", r"\1\2", text, count=1)


def parameters_exchanged(text):
    """The first two parameters are exchanged."""
    return re.sub(r"\(([^(),]+),([^(),]+)([,)])", r"(\2,\1\3", text, count=1)


def nothing_behind_the_dots(text):
    """Types behind the dots are passed over."""
    return re.sub(r"(\.\.\.)\s*,[^()]*\)", r"\1)", text, count=1)


READINGS = [star_left_out, array_by_value, no_sign, short_long, bool_of_int, size_with_a_sign, real_alone,
            least_is_fast, second_member_left_out, parameters_exchanged, nothing_behind_the_dots]


def names_exchanged(found):
    """The names of the first two parameters are exchanged."""
    return found[1::-1] + found[2:]


def name_of_the_one_before(found):
    """A parameter without a name has that of the one before it."""
    return tuple(name or before for before, name in zip(("", *found), found))


NAMES = [names_exchanged, name_of_the_one_before]
