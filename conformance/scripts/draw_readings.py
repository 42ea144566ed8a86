"""Scripts that differ from well-typed ones in a part or two, and JSON as people write it: blanks, escapes, repeated
keys, forms of numbers, and texts that are no JSON or nearly none. The same seed gives the same texts."""

import copy
import json

# What may stand anywhere: numbers at the ends of ranges, names, types, values, moves and forms that are wrong nearly
# everywhere.
SCALARS = ["void", "uint8", "sint8", "uint16", "sint32", "uint64", "uint128", "sint128", "float", "double", "pointer",
           "uchar", "slong", "longdouble", "complex_float", "vector", "int", ""]
NUMBERS = [0, 1, 2, -1, 3, 64, 127, 128, 255, 256, -128, -129, 65535, 65536, 1 << 31, -1 << 31, (1 << 32) - 1, 1 << 32,
           (1 << 63) - 1, 1 << 63, -1 << 63, (-1 << 63) - 1, (1 << 64) - 1, 1 << 64, 10 ** 40]
TEXTS = ["", "a", "f0", "p0", "r1", "apply", "twice", "sum3", "hoarder", "main", "a" * 32, "a" * 33, "a b", "0", "-0",
         "+5", "00", "-1", "1e3", "00000000", "0000000", "ABCDEF01", "ABCDEF0123456789", "0g000000",
         "340282366920938463463374607431768211455", "340282366920938463463374607431768211456",
         "-170141183460469231731687303715884105728", "-170141183460469231731687303715884105729",
         "int f(int)", "int f(const char *fmt, ...);", "void f(struct{int a[0];}s)", "int f(int,)", "int f(char)",
         "f\u00e9", "\U0001f600", "\u0000", "name\n"]
OTHERS = [None, True, False, [], {}, [0], [0, 1], [[]], {"struct": []}, {"struct": ["uint8"]}, {"struct": 5},
          {"array": ["uint8", 3]}, {"array": ["uint8", 0]}, {"array": ["uint8"]}, {"array": ["uint8", 4097]},
          {"struct": [{"array": ["uint8", 4096]}]}, {"struct": [{"array": ["double", 513]}]}, {"struct": ["void"]},
          {"struct": ["longdouble"]}, {"arg": 0}, {"arg": 1}, {"arg": -1}, {"res": "r1"}, {"res": "p0"}, {"res": 5},
          {"user": True}, {"user": False}, {"field": [{"arg": 0}, 0]}, {"field": [{"arg": 0}, 9]}, {"field": 5},
          {"of": ["uint8", 255]}, {"of": ["uint8", 256]}, {"of": ["void", 0]}, {"of": ["uint8"]},
          {"of": [{"struct": ["float"]}, ["00000000"]]}, {"add": [1, 2]}, {"add": 5}, {"sub": [{"arg": 0}, 1]},
          {"cast": {"user": True}}, {"cast": 5}, {"arg": 0, "res": "a"}, {"call": 5}, {"return": None}, {"return": 0},
          {"make": "f0"}, {"free": {"user": True}}, {"print": {"user": True}}, {"print": 5},
          {"make": "apply", "print": {"user": True}}, {"ret": "void", "args": []},
          {"ret": "void", "args": ["uint8"], "fixed": 1}, {"ret": "void", "args": [], "fixed": 0},
          {"ret": "void", "args": ["uint64"] * 65}]
KEYS = ["version", "signatures", "functions", "main", "ret", "args", "fixed", "name", "sig", "body", "struct", "array",
        "when", "call", "as", "make", "user", "free", "print", "return", "arg", "res", "field", "of", "add", "sub",
        "cast", "Version", "", "x"]


def any_value(random):
    pool = random.choice([SCALARS, NUMBERS, NUMBERS, TEXTS, OTHERS, OTHERS])
    return copy.deepcopy(random.choice(pool))


def nodes(value, path=()):
    """The paths of all parts of a value."""
    yield path
    parts = value.items() if isinstance(value, dict) else enumerate(value) if isinstance(value, list) else ()
    for key, inner in parts:
        yield from nodes(inner, (*path, key))


def at(value, path):
    for key in path:
        value = value[key]
    return value


def chosen(random, script):
    """The path of a part: as often in the signatures or the heads of functions as in the bodies, of which most are."""
    start, deep = random.choice([((), 1), (("signatures",), 9), (("functions",), 2), (("functions",), 9),
                                 (("main",), 9), (("main",), 3)])
    if start and start[0] not in script:
        return ()
    paths = [path for path in nodes(at(script, start)) if len(path) <= deep]
    return (*start, *random.choice(paths))


def deepened(random, value):
    """A type inside so many structs, or a value of it inside so many arrays."""
    for _ in range(random.choice([1, 2, 14, 15, 16, 17])):
        value = {"struct": [value]} if random.random() < 0.8 else {"array": [value, random.choice([1, 1, 2])]}
    return value


def changed(random, script):
    """Changes a part of the script in place; the whole where it has none."""
    path = chosen(random, script)
    if not path:
        return any_value(random) if random.random() < 0.1 else script
    *above, key = path
    parent = at(script, above)
    roll = random.random()
    if roll < 0.15:
        del parent[key]
    elif roll < 0.3:
        value = at(script, path)
        if isinstance(parent, dict) and random.random() < 0.5:
            parent[random.choice(KEYS)] = any_value(random)
        elif isinstance(value, dict):
            value[random.choice(KEYS)] = any_value(random)
        elif isinstance(value, list):
            value.insert(random.randint(0, len(value)), any_value(random))
        else:
            parent[key] = any_value(random)
    elif roll < 0.38 and isinstance(parent, dict):
        parent[random.choice(KEYS)] = parent.pop(key)
    elif roll < 0.5:
        parent[key] = copy.deepcopy(at(script, chosen(random, script)))
    elif roll < 0.55 and isinstance(parent, list):
        parent[key:key + 2] = parent[key:key + 2][::-1]
    elif roll < 0.6 and isinstance(parent, list):
        parent.insert(key, copy.deepcopy(parent[key]))
    elif roll < 0.65:
        parent[key] = deepened(random, parent[key])
    elif roll < 0.8 and isinstance(parent[key], int):
        parent[key] += random.choice([-1, 1, 1, 256, 1 << 32, -1 << 63])
    else:
        parent[key] = any_value(random)
    return script


def refused(random, script):
    """A script that differs from this one in a part or two; some of these are no scripts, and some are."""
    found = copy.deepcopy(script)
    for _ in range(random.choice([1, 1, 1, 2, 3])):
        if isinstance(found, dict):
            found = changed(random, found)
    return found


# ---- JSON as people write it

BLANKS = ["", "", "", " ", "  ", "\n", "\t", "\r\n", "\n    "]
ESCAPES = {'"': '\\"', "\\": "\\\\", "/": "\\/", "\b": "\\b", "\f": "\\f", "\n": "\\n", "\r": "\\r", "\t": "\\t"}
# Numbers of one value: the first is what json writes, and the others are no integers.
FORMS = ["{}", "{}.0", "{}e0", "{}E+0", "{}e-0", "{}.00000000000000000000"]
ODD_NUMBERS = ["-0", "0.5", "1e400", "-1e400", "1e308", "1E-999", "0e0", "18446744073709551616", "-9223372036854775809",
               "1" + "0" * 400, "123456789012345678901234567890"]
# What stands in no JSON, or means something else in other notations.
ODD = [b",", b":", b"\"", b"\\", b"{", b"}", b"[", b"]", b"\0", b"\x1f", b"\x7f", b"\xff", b"\xc3", b"\xe2\x80\xa8",
       b"\xef\xbb\xbf", b"//x\n", b"/**/", b"#", b"'", b"NaN", b"Infinity", b"-", b"+", b".", b"0", b"1", b"e1", b"0x1",
       b"null", b"nul", b"True", b"\x0b", b"\x0c", b"\xc2\xa0", b"\\u", b"\\ud800", b"\\udc00", b"\\ud800\\udc00",
       b"\\x41", b"\\u00e9", b"\\u12g4", b"\"a\":1,", b"\n", b" "]


class Style:
    """How one text is written."""

    def __init__(self, random):
        self.random = random
        self.blanks = random.choice([[""], [" "], BLANKS])
        self.escaped = random.choice([0, 0, 0.05, 0.5, 1])
        self.repeated = random.choice([0, 0, 0, 0.02, 0.3])
        self.numbers = random.choice([0, 0, 0, 0.02, 0.1])

    def blank(self):
        return self.random.choice(self.blanks)

    def text(self, value):
        return f'"{"".join(map(self.letter, value))}"'

    def letter(self, letter):
        random = self.random
        if random.random() < self.escaped:
            if letter in ESCAPES and random.random() < 0.5:
                return ESCAPES[letter]
            units = letter.encode("utf-16-be")
            codes = [units[k:k + 2].hex() for k in range(0, len(units), 2)]
            return "".join("\\u" + (code.upper() if random.random() < 0.5 else code) for code in codes)
        if letter in '"\\' or letter < " ":
            return json.dumps(letter)[1:-1]
        return letter

    def number(self, value):
        random = self.random
        if random.random() >= self.numbers:
            return str(value)
        return random.choice([*(form.format(value) for form in FORMS), *ODD_NUMBERS])

    def key(self, key, value):
        return f"{self.text(key)}{self.blank()}:{self.blank()}{self.written(value)}"

    def members(self, value):
        """Some keys stand twice: mostly the value counts, as the last one; else what stands there in its place."""
        random, listed = self.random, []
        for key, inner in value.items():
            if random.random() < self.repeated:
                listed.append(self.key(key, any_value(random)))
                if random.random() < 0.1:
                    random.shuffle(listed)
            listed.append(self.key(key, inner))
        return listed

    def written(self, value):
        if isinstance(value, str):
            return self.text(value)
        if isinstance(value, bool) or value is None:
            return json.dumps(value)
        if isinstance(value, int):
            return self.number(value)
        listed = self.members(value) if isinstance(value, dict) else list(map(self.written, value))
        comma = f"{self.blank()},{self.blank()}"
        start, end = "{}" if isinstance(value, dict) else "[]"
        return f"{start}{self.blank()}{comma.join(listed)}{self.blank()}{end}"


def nested(random):
    """Arrays and objects about as deep as they may be."""
    deep = random.choice([126, 127, 128, 129, 2000])
    return b"[" * deep + b"]" * deep if random.random() < 0.5 else b'{"a":' * deep + b"0" + b"}" * deep


def text(random, value):
    """The value as people write it; one in five has some bytes more, fewer or other ones."""
    style = Style(random)
    found = f"{style.blank()}{style.written(value)}{style.blank()}".encode()
    roll = random.random()
    if roll < 0.01:
        return nested(random)
    if roll < 0.05:
        start = random.randrange(len(found))
        return found[:start] + found[start + 1:]
    if roll < 0.2:
        start = random.choice([0, len(found), random.randrange(len(found))])
        end = start + random.choice([0, 0, 1])
        return found[:start] + random.choice(ODD) + found[end:]
    if roll < 0.21:
        return found[:random.randrange(len(found))]
    return found
