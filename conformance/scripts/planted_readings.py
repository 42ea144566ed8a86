"""Wrong readings, to see that a comparison of readings finds them. Some give the program another text: what it says of
that is what it would say of the text as it is, if it had the error. Others change what it says."""

import json
import re

import reading

TRIED = 2000


class Raw(str):
    """A number as it is written."""


class Keep(reading.Numbers):
    """Keeps numbers as they are written."""

    def whole(self, text):
        return Raw(text)

    floating = whole


def dumped(value):
    if isinstance(value, Raw):
        return str(value)
    if isinstance(value, dict):
        return "{" + ",".join(f"{json.dumps(key)}:{dumped(inner)}" for key, inner in value.items()) + "}"
    return f"[{','.join(map(dumped, value))}]" if isinstance(value, list) else json.dumps(value)


def rewritten(text, change, pairs=None):
    """The text of JSON with each object, array or scalar of it changed; as it is where it is no JSON."""
    def changed(value):
        if isinstance(value, dict):
            value = {key: changed(inner) for key, inner in value.items()}
        elif isinstance(value, list):
            value = list(map(changed, value))
        return change(value)

    try:
        reading.parsed(text)
        value = json.loads(text, parse_int=Raw, parse_float=Raw, object_pairs_hook=pairs)
    except (reading.Refused, ValueError):
        return text
    return dumped(changed(value)).encode()


def first_of_two_keys(text):
    """Of a key that stands twice the first value counts."""
    return rewritten(text, lambda value: value, lambda pairs: dict(pairs[::-1]))


KNOWN = {"version", "signatures", "functions", "main", "ret", "args", "fixed", "name", "sig", "body", "struct", "array",
         *reading.MOVES, "when", "as", "user", *reading.FORMS}


def unknown_key_passed_over(text):
    """A key that no object has is passed over."""
    return rewritten(text, lambda value: {key: inner for key, inner in value.items() if key in KNOWN}
                     if isinstance(value, dict) else value)


def point_is_an_integer(text):
    """A number with a point or an exponent may be an integer."""
    def whole(value):
        found = re.fullmatch(r"(-?\d+)(\.0+)?([eE][+-]?0+)?", value) if isinstance(value, Raw) else None
        return Raw(int(found[1])) if found else value
    return rewritten(text, whole)


def bad_signature_passed_over(text):
    """A signature with a fault is taken for one without arguments."""
    def good(value):
        if isinstance(value, dict) and "ret" in value and isinstance(value.get("args"), list):
            try:
                reading.signature(json.loads(dumped(value)), "", 2)
            except reading.Refused:
                return {"ret": "void", "args": []}
        return value
    return rewritten(text, good)


def escape_is_its_letters(text):
    """An escape is the letters that it is written by."""
    return text.replace(b"\\u", b"u")


def tab_is_no_blank(text):
    """A tab may not stand between parts."""
    return text.replace(b"\t", b"\v")


TEXTS = [first_of_two_keys, unknown_key_passed_over, point_is_an_integer, bad_signature_passed_over,
         escape_is_its_letters, tab_is_no_blank]


def another_element(line):
    """The path of a fault names the element after it."""
    return re.sub(r"/(\d+)", lambda found: f"/{int(found[1]) + 1}", line, count=1)


def path_left_out(line):
    """A fault stands at the whole."""
    return re.sub(r"^ffi3: /\S+:", "ffi3: /:", line)


def refused_as_json(line):
    """What has a fault is no JSON."""
    return re.sub(r"^ffi3: /.*", "ffi3: not JSON", line)


ANSWERS = [another_element, path_left_out, refused_as_json]
