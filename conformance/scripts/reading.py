"""Another reading of scripts, by docs/FORMATS.md, section 1, and docs/RULES.md, section 3: the first fault of a text.

JSON is read by Python's json. This module knows no other part of the program but the grammar of C declarations, which
is that of declaration.py.
"""

import json
import re
import sys
from dataclasses import dataclass

import declaration
from signature import FLOATING, INTEGERS, SIZES, WIDE, Array, Signature, elements_of, is_variadic_fault

sys.set_int_max_str_digits(0)
LONGEST = 1 << 20
DEEPEST = 127  # arrays and objects of JSON
LEFT_OUT = {"longdouble": "long double", "vector": "vector"} | {
    f"complex_{name}": "complex" for name in ("float", "double", "longdouble")}
NAMES = {"void": "void"} | {name: name for name in (*SIZES, *LEFT_OUT)} | {
    "uchar": "uint8", "schar": "sint8", "ushort": "uint16", "sshort": "sint16", "uint": "uint32", "sint": "sint32",
    "ulong": "uint64", "slong": "sint64"}
NATIVES = ("apply", "twice", "sum3")
MOST_ARGUMENTS, LARGEST, MOST_NESTED, GREATEST_COUNT = 64, 4096, 16, (1 << 32) - 1


class Refused(Exception):
    """What the fault line says behind `ffi3: `."""


class Fault(Refused):
    """A fault of a script, with its path."""

    def __init__(self, path, reason):
        super().__init__(f"{path or '/'}: {reason}")


# ---- JSON

class Floating(str):
    """A number that is no integer: one with a point or an exponent, -0, or one outside the range of integers."""


@dataclass(frozen=True)
class Numbers:
    """How numbers are read: those of the format."""

    def whole(self, text):
        value = int(text)
        return value if text != "-0" and -1 << 63 <= value < 1 << 64 else self.floating(text)

    def floating(self, text):
        if float(text) in (float("inf"), float("-inf")):
            raise ValueError(f"{text[:20]} is too large")
        return Floating(text)


def no_constant(text):
    raise ValueError(f"{text} is no JSON")


def is_paired(text):
    """Whether each escape of half a pair stands beside the other half."""
    high = -1  # where an escape of a first half ends
    for escape in re.finditer(r"\\(?:u([0-9a-fA-F]{4})|.)", text, re.DOTALL):
        unit = int(escape[1], 16) if escape[1] else 0
        is_low = 0xDC00 <= unit < 0xE000
        if is_low != (high == escape.start()) or (high >= 0 and not is_low):
            return False
        high = escape.end() if 0xD800 <= unit < 0xDC00 else -1
    return high < 0


def nesting(text):
    """How deep arrays and objects nest in a JSON text."""
    deep = most = 0
    for mark in re.findall(r"[\[{]|[\]}]", re.sub(r'"(?:[^"\\]|\\.)*"', "", text, flags=re.DOTALL)):
        deep += 1 if mark in "[{" else -1
        most = max(most, deep)
    return most


def parsed(given, numbers=Numbers()):
    """The value of a text of JSON; a Refused where it is none."""
    if len(given) > LONGEST:
        raise Refused("script too long")
    try:
        text = given.decode()
        value = json.loads(text, parse_int=numbers.whole, parse_float=numbers.floating, parse_constant=no_constant)
    except (ValueError, RecursionError):
        raise Refused("not JSON") from None
    if not is_paired(text) or nesting(text) > DEEPEST:
        raise Refused("not JSON")
    return value


# ---- types and signatures

def shape(value, path, version):
    """The type that a value is, whatever faults it has."""
    if isinstance(value, str) and not isinstance(value, Floating):
        if value not in NAMES or (version == 1 and NAMES[value] in WIDE):
            raise Fault(path, "unknown type")
        return NAMES[value]
    if not isinstance(value, dict) or len(value) != 1:
        raise Fault(path, "not a type")
    (key, inner), = value.items()
    if key == "struct":
        if not isinstance(inner, list):
            raise Fault(f"{path}/struct", "not an array")
        return tuple(shape(each, f"{path}/struct/{i}", version) for i, each in enumerate(inner))
    if key != "array" or version == 1 or not isinstance(inner, list) or len(inner) != 2:
        raise Fault(path, "not a type")
    element = shape(inner[0], f"{path}/array/0", version)
    if not is_integer(inner[1]) or not 0 <= inner[1] <= GREATEST_COUNT:
        raise Fault(f"{path}/array/1", "not a count")
    return Array(element, inner[1])


def is_integer(value):
    return isinstance(value, int) and not isinstance(value, bool)


def laid_out(kind):
    """The size and the alignment of a type; `void` has none."""
    if isinstance(kind, str):
        return SIZES[kind], SIZES[kind]
    if isinstance(kind, Array):
        size, align = laid_out(kind.element)
        return size * kind.count, align
    end, most = 0, 1
    for size, align in map(laid_out, kind):
        end, most = -(-end // align) * align + size, max(most, align)
    return -(-end // most) * most, most


def check_type(kind, path, is_result=False, is_whole=True, above=0):
    """The first fault of a type: a node's own before those of its elements, and its size behind them."""
    if isinstance(kind, str):
        if kind == "void" and not (is_result and is_whole):
            raise Fault(path, "bad typedef")
        if kind in LEFT_OUT:
            raise Fault(path, f"left out: {LEFT_OUT[kind]}")
        return
    if above == MOST_NESTED:
        raise Fault(path, "too deep")
    if kind == () or isinstance(kind, Array) and (is_whole or kind.count == 0):
        raise Fault(path, "bad typedef")
    if isinstance(kind, Array):
        check_type(kind.element, f"{path}/array/0", is_result, False, above + 1)
    else:
        for i, element in enumerate(kind):
            check_type(element, f"{path}/struct/{i}", is_result, False, above + 1)
    if laid_out(kind)[0] > LARGEST:
        raise Fault(path, f"too large: {laid_out(kind)[0]}")


def check_signature(read, path):
    if len(read.arguments) > MOST_ARGUMENTS:
        raise Fault(f"{path}/args", f"too many arguments: {len(read.arguments)}")
    check_type(read.result, f"{path}/ret", True)
    for i, kind in enumerate(read.arguments):
        check_type(kind, f"{path}/args/{i}")
    if read.fixed is not None:
        if not 1 <= read.fixed <= len(read.arguments):
            raise Fault(f"{path}/fixed", f"bad fixed: {read.fixed} of {len(read.arguments)}")
        for i, kind in enumerate(read.arguments[read.fixed:], read.fixed):
            if is_variadic_fault(kind):
                raise Fault(f"{path}/args/{i}", "bad variadic argument")


def signature(value, path, version):
    if version == 2 and is_text(value):
        try:
            return declaration.read(value.encode()).signature()
        except declaration.Refused as fault:
            raise Fault(path, fault.in_script()) from None
    check_object(value, path, ["ret", "args"], ["fixed"])
    result = shape(value["ret"], f"{path}/ret", version)
    check_array(value["args"], f"{path}/args")
    arguments = tuple(shape(each, f"{path}/args/{i}", version) for i, each in enumerate(value["args"]))
    if "fixed" in value and not (is_integer(value["fixed"]) and 0 <= value["fixed"] <= GREATEST_COUNT):
        raise Fault(f"{path}/fixed", "not a count")
    found = Signature(result, arguments, value.get("fixed"))
    check_signature(found, path)
    return found


# ---- objects

def is_text(value):
    return isinstance(value, str) and not isinstance(value, Floating)


def check_keys(value, path, required, optional):
    if not {*value} <= {*required, *optional}:
        raise Fault(path, "unknown key")
    for key in required:
        if key not in value:
            raise Fault(path, f"missing key {key}")


def check_object(value, path, required, optional=()):
    if not isinstance(value, dict):
        raise Fault(path, "not an object")
    check_keys(value, path, required, optional)


def check_array(value, path):
    if not isinstance(value, list):
        raise Fault(path, "not an array")


def check_name(value, path, earlier):
    if not is_text(value) or not re.fullmatch(r"[A-Za-z0-9_]{1,32}", value):
        raise Fault(path, "bad name")
    if value in earlier:
        raise Fault(path, "name twice")


# ---- bodies and values

MOVES = {"call": (["call", "sig", "args"], ["when", "as"]), "make": (["make"], ["when", "user", "as"]),
         "free": (["free"], ["when"]), "print": (["print"], ["when"]), "return": (["return"], ["when"])}
TYPED = ("arg", "res", "user", "field", "of")
FORMS = (*TYPED, "add", "sub", "cast")
WHOLE = (*INTEGERS, "pointer")


def in_range(value, kind):
    bits = 8 * SIZES[kind]
    return -1 << bits - 1 <= value < 1 << bits - 1 if kind.startswith("s") else 0 <= value < 1 << bits


def pair(value, path):
    if not isinstance(value, list) or len(value) != 2:
        raise Fault(path, "wrong count")
    return value


class Body:
    """One body as it is read: what its signature says, and the results that are named so far."""

    def __init__(self, script, read, moves, path):
        self.script, self.signature, self.named = script, read, {}
        check_array(moves, path)
        for i, move in enumerate(moves):
            self.move(move, f"{path}/{i}")
        if not moves or "return" not in moves[-1] or "when" in moves[-1]:
            raise Fault(path, "no return at the end")

    def move(self, move, path):
        kind = next((kind for kind in MOVES if kind in move), None) if isinstance(move, dict) else None
        if kind is None:
            raise Fault(path, "not a move")
        check_keys(move, path, *MOVES[kind])
        if "when" in move and self.typed(move["when"], f"{path}/when") not in WHOLE:
            raise Fault(f"{path}/when", "wrong type")
        result = getattr(self, f"read_{kind}")(move, path)
        if "as" in move:
            check_name(move["as"], f"{path}/as", self.named)
            if result == "void":
                raise Fault(f"{path}/as", "void result")
            self.named[move["as"]] = result

    def read_call(self, move, path):
        self.value(move["call"], "pointer", f"{path}/call")
        called = self.script.numbered(move["sig"], f"{path}/sig")
        check_array(move["args"], f"{path}/args")
        self.values(move["args"], called.arguments, f"{path}/args")
        return called.result

    def read_make(self, move, path):
        if not is_text(move["make"]) or move["make"] not in (*self.script.names, *NATIVES):
            raise Fault(f"{path}/make", "no such function")
        if "user" in move:
            self.value(move["user"], "pointer", f"{path}/user")
        return "pointer"

    def read_free(self, move, path):
        self.value(move["free"], "pointer", f"{path}/free")

    def read_print(self, move, path):
        self.typed(move["print"], f"{path}/print")

    def read_return(self, move, path):
        if self.signature.result != "void":
            self.value(move["return"], self.signature.result, f"{path}/return")
        elif move["return"] is not None:
            raise Fault(f"{path}/return", "not null")

    def values(self, listed, kinds, path):
        if len(listed) != len(kinds):
            raise Fault(path, "wrong count")
        for i, (value, kind) in enumerate(zip(listed, kinds)):
            self.value(value, kind, f"{path}/{i}")

    def form(self, value, path):
        """Which form an object is; None of another value."""
        if value is None or isinstance(value, bool):
            raise Fault(path, "not a value")
        if not isinstance(value, dict):
            return None
        if len(value) != 1 or not {*value} <= {*FORMS} or value.get("user", True) is not True:
            raise Fault(path, "not a value")
        return next(iter(value))

    def value(self, value, kind, path):
        """Reads a value against a type."""
        form = self.form(value, path)
        if form in TYPED:
            if self.typed(value, path) != kind:
                raise Fault(path, "wrong type")
        elif form in ("add", "sub"):
            if kind not in INTEGERS:
                raise Fault(path, "wrong type")
            for i, each in enumerate(pair(value[form], f"{path}/{form}")):
                self.value(each, kind, f"{path}/{form}/{i}")
        elif form == "cast":
            if kind not in WHOLE:
                raise Fault(path, "wrong type")
            if self.typed(value["cast"], f"{path}/cast") not in WHOLE:
                raise Fault(f"{path}/cast", "wrong type")
        elif isinstance(value, list):
            if isinstance(kind, str):
                raise Fault(path, "wrong type")
            self.values(value, elements_of(kind), path)
        elif is_text(value):
            self.text(value, kind, path)
        else:
            self.number(value, kind, path)

    def number(self, value, kind, path):
        if kind not in WHOLE:
            raise Fault(path, "wrong type")
        if isinstance(value, Floating):
            raise Fault(path, "not an integer")
        if not in_range(value, kind):
            raise Fault(path, "out of range")

    def text(self, value, kind, path):
        if kind in WIDE:
            if not re.fullmatch(r"0|-?[1-9][0-9]*", value):
                raise Fault(path, "bad integer")
            if not in_range(int(value), kind):
                raise Fault(path, "out of range")
        elif kind in FLOATING:
            if not re.fullmatch(f"[0-9a-fA-F]{{{2 * SIZES[kind]}}}", value):
                raise Fault(path, "bad bytes")
        else:
            raise Fault(path, "wrong type")

    def typed(self, value, path):
        """The type of a value that must have one of its own."""
        form = self.form(value, path)
        if form not in TYPED:
            raise Fault(path, "no type of its own")
        return getattr(self, f"typed_{form}")(value[form], path)

    def typed_arg(self, number, path):
        if not is_integer(number) or not 0 <= number < len(self.signature.arguments):
            raise Fault(path, "no such argument")
        return self.signature.arguments[number]

    def typed_res(self, name, path):
        if not is_text(name) or name not in self.named:
            raise Fault(path, "no such result")
        return self.named[name]

    def typed_user(self, _, path):
        return "pointer"

    def typed_field(self, inner, path):
        whole, number = pair(inner, f"{path}/field")
        kind = self.typed(whole, f"{path}/field/0")
        if isinstance(kind, str):
            raise Fault(f"{path}/field/0", "wrong type")
        if not is_integer(number) or not 0 <= number < len(elements_of(kind)):
            raise Fault(path, "no such field")
        return elements_of(kind)[number]

    def typed_of(self, inner, path):
        written, value = pair(inner, f"{path}/of")
        kind = shape(written, f"{path}/of/0", self.script.version)
        check_type(kind, f"{path}/of/0")
        self.value(value, kind, f"{path}/of/1")
        return kind


class Script:
    """A script as it is read, in the order of the format; a Refused says its first fault."""

    def __init__(self, value):
        check_object(value, "", ["version", "signatures", "functions", "main"])
        if not is_integer(value["version"]) or value["version"] not in (1, 2):
            raise Fault("/version", "version not known")
        self.version = value["version"]
        check_array(value["signatures"], "/signatures")
        self.signatures = [signature(each, f"/signatures/{i}", self.version)
                           for i, each in enumerate(value["signatures"])]
        check_array(value["functions"], "/functions")
        self.names = {}
        for i, function in enumerate(value["functions"]):
            path = f"/functions/{i}"
            check_object(function, path, ["name", "sig", "body"])
            check_name(function["name"], f"{path}/name", self.names)
            self.names[function["name"]] = self.numbered(function["sig"], f"{path}/sig")
        for i, function in enumerate(value["functions"]):
            Body(self, self.names[function["name"]], function["body"], f"/functions/{i}/body")
        Body(self, Signature("void", ()), value["main"], "/main")

    def numbered(self, number, path):
        if not is_integer(number) or not 0 <= number < len(self.signatures):
            raise Fault(path, "no such signature")
        return self.signatures[number]


def refusal(given):
    """The fault line of a text, or nothing where it is a script without fault."""
    try:
        Script(parsed(given))
    except Refused as fault:
        return f"ffi3: {fault}\n"
    return ""
