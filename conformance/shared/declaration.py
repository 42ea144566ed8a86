"""C declarations of functions, read apart from the program by the grammar that docs/FORMATS.md states.

The grammar is a table, and Earley's algorithm reads by it whatever it says: so the first unexpected token is the first
that no declaration of the table has there. What a text is read as keeps the text of each type and the names of its
members, by which a C compiler is asked; its signature is in the form of signature.py.
"""

import re
from collections import defaultdict
from dataclasses import dataclass

from signature import SIZES, Array, Signature

MOST_OPEN = 16
GREATEST_NUMBER = 4294967295
LONGEST = 1 << 20
DEEPEST, LARGEST, MOST_ARGUMENTS = 16, 4096, 64
START = "declaration"
WITH_TEXT = ("type0", "result")

FIXED = {
    "float": "float", "double": "double", "int8_t": "sint8", "int16_t": "sint16", "int32_t": "sint32",
    "int64_t": "sint64", "uint8_t": "uint8", "uint16_t": "uint16", "uint32_t": "uint32", "uint64_t": "uint64",
    "size_t": "uint64", "uintptr_t": "uint64", "intptr_t": "sint64",
}
WORDS = {*FIXED, "signed", "unsigned", "const", "short", "int", "long", "__int128", "char", "void", "struct"}
SPELLED = {
    "uint8": "uint8_t", "sint8": "int8_t", "uint16": "uint16_t", "sint16": "int16_t", "uint32": "uint32_t",
    "sint32": "int32_t", "uint64": "uint64_t", "sint64": "int64_t", "uint128": "unsigned __int128",
    "sint128": "__int128", "float": "float", "double": "double", "pointer": "void *", "void": "void",
}
# A blank, a word, a number, a mark: the longest there is.
CUT = re.compile(rb"[ \t\n\r]+|(?P<word>[A-Za-z_][A-Za-z0-9_]*)|(?P<number>[0-9]+)|(?P<mark>\.\.\.|[](){}[,;*])")


@dataclass(frozen=True)
class Token:
    """Its kind is a word of the grammar, a mark, "name" or "number"."""

    kind: str
    at: int
    text: str

    def end(self):
        return self.at + len(self.text)


@dataclass(frozen=True)
class Struct:
    """The members in order: the name of each, and its type."""

    members: tuple


@dataclass(frozen=True)
class Type:
    """A result's or a parameter's type: a scalar, "void" or a Struct, and the C text that it was read from."""

    node: object
    text: str


@dataclass(frozen=True)
class Declaration:
    """A function as it is declared: its parameters' types, and the names of those that have one; then the structs of
    the text, those behind a star too, and all of its identifiers."""

    name: str
    result: Type
    parameters: tuple
    parameter_names: tuple
    variadic: bool
    structs: tuple
    identifiers: tuple

    def signature(self):
        fixed = len(self.parameters) if self.variadic else None
        return Signature(kind_of(self.result.node), tuple(kind_of(each.node) for each in self.parameters), fixed)


class Refused(Exception):
    """What the program says of a text that is no declaration; `at` is the offset where the fault has one."""

    def __init__(self, reason, at=None):
        super().__init__(reason)
        self.reason, self.at = reason, at

    def line(self):
        return f"ffi3: {self.reason}" if self.at is None else f"ffi3: at {self.at}: {self.reason}"

    def in_script(self):
        """The reason that stands in a script at a signature which is this text."""
        return self.reason if self.at is None else f"bad declaration at {self.at}"


def kind_of(node):
    """The type in the form of signature.py."""
    if isinstance(node, Array):
        return Array(kind_of(node.element), node.count)
    return tuple(kind_of(member) for _, member in node.members) if isinstance(node, Struct) else node


def leaves_of(node, path=""):
    """Each leaf from the left: its scalar, and what C calls it in a value of the type."""
    if isinstance(node, Array):
        for i in range(node.count):
            yield from leaves_of(node.element, f"{path}[{i}]")
    elif isinstance(node, Struct):
        for name, member in node.members:
            yield from leaves_of(member, f"{path}.{name}" if path else name)
    else:
        yield node, path


# ---- the grammar: a head, what it may be, and what that means


def first(value, *_):
    return value


def last(*values):
    return values[-1]


def listed(value):
    return (value,)


def appended(values, *more):
    return (*values, more[-1])


def integer(*words):
    """The scalar that sign and size name, where an int has 32 bits and a long 64."""
    texts = [word.text for word in words]
    bits = {"char": 8, "short": 16, "long": 64, "__int128": 128}
    size = next((bits[text] for text in texts if text in bits), 32)
    return f"{'u' if 'unsigned' in texts else 's'}int{size}"


def spread(make):
    """The same of words that are grouped."""
    def flat(values):
        for value in values:
            yield from flat(value) if isinstance(value, tuple) else (value,)
    return lambda *values: make(*flat(values))


def array_of(node, counts):
    """The first count is of the outermost array."""
    for count in reversed(counts):
        node = Array(node, count)
    return node


def grammar():
    """Rows of a head, a body and what is made of the body's values. Types are told apart by how many structs are open
    around them. No body is empty, and each has one reading."""
    rows = [
        (START, "function", first),
        (START, "function ;", first),
        ("function", "result name ( )", lambda result, name, *_: (result, name, (), False)),
        ("function", "result name ( void )", lambda result, name, *_: (result, name, (), False)),
        ("function", "result name ( parameters )", lambda result, name, _, listed, __: (result, name, listed, False)),
        ("function", "result name ( parameters , ... )",
         lambda result, name, _, listed, *__: (result, name, listed, True)),
        ("result", "type0", first),
        ("result", "void", lambda *_: "void"),
        ("result", "const void", lambda *_: "void"),
        ("parameters", "parameter", listed),
        ("parameters", "parameters , parameter", appended),
        ("parameter", "type0", lambda kind: (kind, None)),
        ("parameter", "type0 name", lambda kind, name: (kind, name.text)),
        *(("scalar", word, lambda word: FIXED[word.text]) for word in FIXED),
        *(("scalar", body, spread(integer)) for body in ("sized", "sign", "sign sized", "sign char")),
        *(("sign", word, listed) for word in ("signed", "unsigned")),
        *(("sized", body, lambda *words: words) for body in
          ("short", "short int", "int", "long", "long int", "long long", "long long int", "__int128")),
        ("counts", "[ number ]", lambda _, number, __: (int(number.text),)),
        ("counts", "counts [ number ]", lambda counts, _, number, __: (*counts, int(number.text))),
    ]
    for d in range(MOST_OPEN + 1):
        rows += [
            (f"type{d}", f"whole{d}", first),
            (f"type{d}", f"const whole{d}", last),
            (f"type{d}", f"pointer{d}", first),
            (f"type{d}", f"const pointer{d}", last),
            (f"pointer{d}", f"base{d} *", lambda *_: "pointer"),
            (f"pointer{d}", f"pointer{d} *", first),
            (f"base{d}", f"whole{d}", first),
            *((f"base{d}", body, first) for body in ("char", "void", "struct name")),
            (f"whole{d}", "scalar", first),
        ]
        if d < MOST_OPEN:
            rows += [
                (f"whole{d}", f"struct {{ members{d + 1} }}", lambda _, __, members, ___: Struct(members)),
                (f"members{d + 1}", f"member{d + 1}", listed),
                (f"members{d + 1}", f"members{d + 1} member{d + 1}", appended),
                (f"member{d + 1}", f"type{d + 1} name ;", lambda kind, name, _: (name.text, kind)),
                (f"member{d + 1}", f"type{d + 1} name counts ;",
                 lambda kind, name, counts, _: (name.text, array_of(kind, counts))),
            ]
    return [(head, tuple(body.split()), make) for head, body, make in rows]


RULES = grammar()
BY_HEAD = {head: [number for number, rule in enumerate(RULES) if rule[0] == head] for head, _, _ in RULES}


def tokens_of(text):
    """The tokens of bytes."""
    tokens, at = [], 0
    while at < len(text):
        found = CUT.match(text, at)
        if found is None or re.fullmatch(rb"0[0-9]+", found[0]):
            raise Refused("bad token", at)
        if found.lastgroup:
            word = found[0].decode()
            kind = found.lastgroup if found.lastgroup == "number" else word
            if found.lastgroup == "word" and word not in WORDS:
                kind = "name"
            tokens.append(Token(kind, at, word))
        at = found.end()
    return tokens


def parsed(tokens, text):
    """What the tokens of a text mean by the grammar, and the structs in it. Refuses the first token that no declaration
    has there, or the end of the text."""
    # An item is a rule, how much of its body was read, and where it began. With it stand the values of what was read.
    sets = [{} for _ in range(len(tokens) + 1)]
    waiting = [defaultdict(list) for _ in sets]
    structs = []
    sets[0] = {(rule, 0, 0): () for rule in BY_HEAD[START]}
    for k, items in enumerate(sets):
        queue = list(items)
        for rule, done, began in queue:
            head, body, make = RULES[rule]
            values = items[rule, done, began]
            if done == len(body):
                value = make(*values)
                if body[0] == "struct" and len(body) == 4:
                    structs.append(value)
                if head in WITH_TEXT and not isinstance(value, Type):
                    value = Type(value, text[tokens[began].at:tokens[k - 1].end()].decode())
                for waiter, read, since in waiting[began][head]:
                    item = waiter, read + 1, since
                    if item not in items:
                        items[item] = (*sets[began][waiter, read, since], value)
                        queue.append(item)
            elif body[done] in BY_HEAD:
                if body[done] not in waiting[k]:
                    for other in BY_HEAD[body[done]]:
                        items[other, 0, k] = ()
                        queue.append((other, 0, k))
                waiting[k][body[done]].append((rule, done, began))
            elif k < len(tokens) and tokens[k].kind == body[done]:
                sets[k + 1][rule, done + 1, began] = (*values, tokens[k])
        if k < len(tokens) and not sets[k + 1]:
            raise Refused("unexpected", tokens[k].at)
    for rule in BY_HEAD[START]:
        if values := sets[-1].get((rule, len(RULES[rule][1]), 0)):
            return RULES[rule][2](*values), structs
    raise Refused("unexpected", len(text))


# ---- faults of a signature (docs/RULES.md, section 3), of those that declarations can have


def size_of(kind):
    """Size and alignment."""
    if isinstance(kind, Array):
        size, align = size_of(kind.element)
        return size * kind.count, align
    if isinstance(kind, str):
        return SIZES[kind], SIZES[kind]
    at, greatest = 0, 1
    for size, align in map(size_of, kind):
        at = -(-at // align) * align + size
        greatest = max(greatest, align)
    return -(-at // greatest) * greatest, greatest


def judge(kind, nesting=1):
    """Refuses the first fault of a type."""
    if isinstance(kind, str):
        return
    if nesting > DEEPEST:
        raise Refused("too deep")
    if isinstance(kind, Array) and kind.count == 0:
        raise Refused("bad typedef")
    for element in (kind.element,) if isinstance(kind, Array) else kind:
        judge(element, nesting + 1)
    if size_of(kind)[0] > LARGEST:
        raise Refused(f"too large: {size_of(kind)[0]}")


# ---- a whole text


def read(text):
    """The declaration that bytes are; refuses the first fault: of token, grammar, number or signature, in this order
    over the whole text."""
    tokens = tokens_of(text)
    (result, name, parameters, variadic), structs = parsed(tokens, text)
    for token in tokens:
        if token.kind == "number" and int(token.text) > GREATEST_NUMBER:
            raise Refused("bad number", token.at)
    found = Declaration(name.text, result, tuple(kind for kind, _ in parameters),
                        tuple(name for _, name in parameters if name), variadic, tuple(structs),
                        tuple(token.text for token in tokens if token.kind == "name"))
    if len(parameters) > MOST_ARGUMENTS:
        raise Refused(f"too many arguments: {len(parameters)}")
    for kind in found.signature().types():
        judge(kind)
    return found


# ---- canonical text


def declared(kind, name):
    """A type before the name of what has it, and its counts behind."""
    counts = ""
    while isinstance(kind, Array):
        counts, kind = f"{counts}[{kind.count}]", kind.element
    return f"{spelled(kind)} {name}{counts}"


def spelled(kind):
    if isinstance(kind, str):
        return SPELLED[kind]
    return "struct { " + "".join(f"{declared(member, f'm{i}')}; " for i, member in enumerate(kind)) + "}"


def canonical(name, signature):
    listed = [spelled(kind) for kind in signature.arguments] or ["void"]
    return f"{spelled(signature.result)} {name}({', '.join(listed)}{', ...' * (signature.fixed is not None)});"


def lines_of(text):
    """Status, output and fault line of `cdecl` for these bytes."""
    if len(text) > LONGEST:
        return 1, "", "ffi3: input too long\n"
    try:
        text.decode()
    except UnicodeDecodeError:
        return 1, "", "ffi3: not UTF-8\n"
    try:
        found = read(text)
    except Refused as fault:
        return 1, "", f"{fault.line()}\n"
    return 0, f"{found.signature()}\n{canonical(found.name, found.signature())}\n", ""
