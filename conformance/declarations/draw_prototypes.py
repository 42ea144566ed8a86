"""Random prototypes as people write them, each with the parts that C has of it. The same seed gives the same ones.

What is drawn is C11, with GNU C's attributes: a declaration of a function, and the head of a definition of it in which
each parameter has a name, so that a compiler can be asked of each. No type is said here but by its words: what they
mean is asked of compilers, and of the program. Only where a `char` has no sign is noted, since the program refuses it.
"""

import re
from dataclasses import dataclass, field

# What the texts of a file may name.
PRELUDE = """#include <complex.h>
#include <stdbool.h>
#include <stddef.h>
#include <stdint.h>
#include <sys/types.h>
typedef struct opaque FILE; enum color { RED }; union sigval { int number; void *pointer; };
"""
SIZES = [("short",), ("short", "int"), ("int",), ("long",), ("long", "int"), ("long", "long"), ("long", "long", "int"),
         ("__int128",)]
INTEGERS = [("signed", "char"), ("unsigned", "char"), ("signed",), ("unsigned",),
            *((*sign, *size) for sign in ((), ("signed",), ("unsigned",)) for size in SIZES)]
NAMED = [*(f"{sign}int{more}{bits}_t" for sign in ("", "u") for more in ("", "_least") for bits in (8, 16, 32, 64)),
         "size_t", "ssize_t", "ptrdiff_t", "intptr_t", "uintptr_t", "intmax_t", "uintmax_t", "bool", "_Bool"]
COMPLEX = [(real, word) for real in ("float", "double") for word in ("_Complex", "complex")]
# What stands before a star.
POINTED = ["char", "void", "FILE", "struct opaque", "union sigval", "enum color", "wchar_t", "long double", "pid_t",
           "long double _Complex", "const char", "char const"]
BEHIND_A_STAR = ["", "", "", "const", "volatile", "restrict", "__restrict", "const restrict"]
IN_FRONT = ["extern", "static", "inline", "__inline", "_Noreturn", "__extension__", "extern inline"]
BEHIND = ["__attribute__((nothrow))", "__attribute__ ((__pure__, __leaf__))", "__asm__(\"g)\")",
          "__attribute__((deprecated(\"use \\\"h(\\\"\")))",
          "__attribute__((warn_unused_result)) __attribute__((cold))"]
COMMENTS = ["/* a comment */", "/**/", "/* int x; */", "// to the end\n", "/* over\n two lines */"]
TOKEN = re.compile(r"\w+|\.\.\.|\"(?:[^\"\\]|\\.)*\"|\S")


@dataclass(frozen=True)
class Leaf:
    """A scalar of a value: how it is reached, behind the value's own name, and which part of a complex number it is."""

    path: str = ""
    part: str = ""


@dataclass
class Value:
    """A parameter: its declaration with the name and without, and its scalars; whether its type has a struct's members
    in it, and whether a char without a sign is one of its scalars."""

    name: str
    text: str
    unnamed: str
    leaves: list
    has_members: bool = False
    has_char: bool = False
    may_be_unnamed: bool = True


@dataclass
class Prototype:
    """The text that is read; the same function's head with a name for each parameter; the values; and the names of all
    parameters and types behind the dots as they stand in the text, "" where one has none."""

    function: str
    text: str = ""
    head: str = ""
    result: Value | None = None
    parameters: list = field(default_factory=list)
    behind: list = field(default_factory=list)
    is_variadic: bool = False
    names: tuple = ()

    def has_members(self):
        return any(value.has_members for value in (self.result, *self.parameters) if value)

    def without_sign(self):
        """The value that the program names where a `char` has no sign, or None."""
        values = [("ret", self.result)]
        values += [(f"arg {i}", each) for i, each in enumerate([*self.parameters, *self.behind])]
        return next((name for name, value in values if value and value.has_char), None)


class Drawn:
    def __init__(self, random, number):
        self.random, self.number, self.names = random, number, 0
        self.it = Prototype(f"f{number}")

    def chance(self, of):
        return self.random.random() < of

    def name(self):
        self.names += 1
        return self.random.choice(["a", "n", "x_", "value", "size", "m"]) + str(self.names)

    def shuffled(self, words):
        return " ".join(self.random.sample(list(words), len(words)))

    # ---- bases: text, leaves, whether there are members, whether there is a char without a sign

    def base(self, depth=0):
        roll = self.random.random()
        if roll < 0.35:
            text, leaves = self.shuffled(self.random.choice(INTEGERS)), [Leaf()]
        elif roll < 0.6:
            text, leaves = self.random.choice(NAMED), [Leaf()]
        elif roll < 0.75:
            text, leaves = self.random.choice(["float", "double"]), [Leaf()]
        elif roll < 0.85:
            text, leaves = self.shuffled(self.random.choice(COMPLEX)), [Leaf(part="real"), Leaf(part="imag")]
        elif roll < 0.87:
            return "char", [Leaf()], False, True
        elif depth < 2:
            return self.struct(depth)
        else:
            text, leaves = "int", [Leaf()]
        if self.chance(0.15):
            text = self.random.choice([f"const {text}", f"volatile {text}", f"{text} const"])
        return text, leaves, False, False

    def pointed(self):
        return self.random.choice(POINTED) if self.chance(0.7) else self.base(2)[0]

    def stars(self):
        count = self.random.choice([1, 1, 1, 2, 3])
        return " ".join(f"* {self.random.choice(BEHIND_A_STAR)}".strip() for _ in range(count))

    def struct(self, depth):
        members, leaves, has_char = [], [], False
        for _ in range(self.random.choice([1, 1, 2, 2, 3])):
            base, of_base, _, is_char = self.base(depth + 1)
            declared = []
            for _ in range(self.random.choice([1, 1, 1, 2, 3])):
                name, roll = self.name(), self.random.random()
                counts = [self.random.choice([1, 2, 3]) for _ in range(self.random.choice([1, 1, 2]))]
                listed = "".join(f"[{count}]" for count in counts)
                if roll < 0.5:
                    declared.append(self.random.choice([name, name, f"({name})"]))
                    leaves += reached(f".{name}", of_base)
                    has_char |= is_char
                elif roll < 0.65:
                    declared.append(f"{self.stars()} {name}")
                    leaves += reached(f".{name}", [Leaf()])
                elif roll < 0.8:
                    declared.append(f"{name}{listed}")
                    leaves += [leaf for at in elements(counts) for leaf in reached(f".{name}{at}", of_base)]
                    has_char |= is_char
                elif roll < 0.9:
                    declared.append(f"* {name}{listed}")
                    leaves += [leaf for at in elements(counts) for leaf in reached(f".{name}{at}", [Leaf()])]
                else:
                    declared.append(self.random.choice([f"(* {name})({self.inner()})", f"(* {name}){listed}",
                                                        f"* (* {name})({self.inner()})"]))
                    leaves += reached(f".{name}", [Leaf()])
            members.append(f"{base} {', '.join(declared)};")
        tag = f" s{self.number}_{self.name()}" if self.chance(0.3) else ""
        return f"struct{tag} {{ {' '.join(members)} }}", leaves, True, has_char

    def inner(self):
        """The parameters of a function that is only pointed to or handed."""
        roll = self.random.random()
        if roll < 0.2:
            return "void"
        if roll < 0.25:
            return ""
        listed = [self.random.choice([
            f"{self.pointed()} *", f"{self.base(2)[0]} {self.name()}", f"char {self.name()}", "int",
            f"{self.base(2)[0]} [3]", f"int (*)({'void' if self.chance(0.5) else 'int, char *'})",
        ]) for _ in range(self.random.choice([1, 1, 2]))]
        return ", ".join(listed + ["..."] * self.chance(0.1))

    # ---- parameters

    def value(self):
        """A parameter of any form."""
        name, roll = self.name(), self.random.random()
        if roll < 0.4:
            base, leaves, has_members, is_char = self.base()
            return Value(name, f"{base} {name}", base, leaves, has_members, is_char)
        if roll < 0.65:
            return self.handed(f"{self.pointed()} {self.stars()}", name)
        element, _, has_members, _ = self.base(1)
        if self.chance(0.3):
            element, has_members = f"{self.pointed()} *", False
        rest = "".join(f"[{self.random.choice([1, 3, 8])}]" for _ in range(self.random.choice([0, 0, 1])))
        if roll < 0.8:
            first = self.random.choice(["[]", "[4]", "[16]", "[static 4]", "[const]", "[restrict static 2]"])
            return self.handed(element, name, f"{first}{rest}", has_members)
        result = self.random.choice(["void", "int", f"{self.pointed()} *", self.base(2)[0]])
        form = self.random.choice(["function", "pointer", "pointer", "array", "table", "returns", "rounds"])
        if form == "function":
            value = self.handed(result, name, f"({self.inner()})")
            value.may_be_unnamed = False
            return value
        if form == "array":
            return self.handed(element, f"(* {name})[{self.random.choice([1, 3])}]{rest}", "", has_members, name)
        inside = {"pointer": f"* {name}", "table": f"* {name}[2]", "returns": f"* (* {name})({self.inner()})",
                  "rounds": f"(* {name})"}[form]
        return self.handed(result, f"({inside})({self.inner()})", "", False, name)

    def handed(self, base, declarator, rest="", has_members=False, name=None):
        """A parameter that is handed as a pointer."""
        name = name or declarator
        unnamed = re.sub(rf"\b{name}\b", "", declarator, count=1)
        return Value(name, f"{base} {declarator}{rest}", f"{base} {unnamed}{rest}".rstrip(), [Leaf()], has_members)

    def behind(self):
        """A type behind the dots, which C does not promote."""
        if self.chance(0.4):
            name = self.name()
            return self.handed(f"{self.pointed()} {self.stars()}", name)
        base = self.random.choice(["int", "unsigned int", "long unsigned", "double", "size_t", "long long", "int32_t",
                                   "struct { float x, y; }", "double _Complex"])
        leaves = {"struct { float x, y; }": [Leaf(".x"), Leaf(".y")],
                  "double _Complex": [Leaf(part="real"), Leaf(part="imag")]}.get(base, [Leaf()])
        name = self.name()
        return Value(name, f"{base} {name}", base, leaves, base[-1] == "}")

    # ---- the whole

    def drawn(self):
        it = self.it
        it.parameters = [self.value() for _ in range(self.random.choice([0, 1, 1, 2, 2, 3, 4, 6, 9]))]
        it.is_variadic = bool(it.parameters) and self.chance(0.15)
        if it.is_variadic and self.chance(0.6):
            it.behind = [self.behind() for _ in range(self.random.choice([1, 2, 3]))]
        named = ", ".join(value.text for value in it.parameters) or "void"
        inner = self.inner() if self.chance(0.5) else "void"
        around = self.result(inner)
        it.head = around(f"{it.function}({named}{', ...' * it.is_variadic})")
        values = [*it.parameters, *it.behind]
        # (gcc is asked of a text with a struct's members by its one definition, in which all have names)
        lack = [value.may_be_unnamed and self.chance(0.3) and not it.has_members() for value in values]
        texts = [value.unnamed if lacks else value.text for value, lacks in zip(values, lack)]
        it.names = tuple("" if lacks else value.name for value, lacks in zip(values, lack))
        count = len(it.parameters)
        plain, more = ", ".join(texts[:count]) or "void", "".join(f", {text}" for text in texts[count:])
        called = it.function if self.chance(0.9) else f"({it.function})"
        text = around(f"{called}({plain}{', ...' * it.is_variadic}{more})")
        if self.chance(0.3):
            text = f"{self.random.choice(IN_FRONT)} {text}"
        it.text = self.spaced(text)
        if self.chance(0.25):
            it.text += f" {self.random.choice(BEHIND)}"
        it.text += self.random.choice([";", "\n;", ""])
        return it

    def result(self, inner):
        """What stands round the function's own declarator."""
        roll = self.random.random()
        if roll < 0.2:
            return lambda declarator: f"void {declarator}"
        if roll < 0.6:
            base, leaves, has_members, is_char = self.base()
            self.it.result = Value("", "", base, leaves, has_members, is_char)
            return lambda declarator: f"{base} {declarator}"
        self.it.result = Value("", "", "", [Leaf()])
        base = self.pointed()
        if roll < 0.8:
            stars = self.stars()
            return lambda declarator: f"{base} {stars} {declarator}"
        base = self.random.choice(["int", f"{base} *", self.base(2)[0]])
        if roll < 0.87:
            return lambda declarator: f"{base} (* {declarator})[3]"
        if roll < 0.95:
            return lambda declarator: f"{base} (* {declarator})({inner})"
        return lambda declarator: f"{base} (* (* {declarator})({inner}))(int)"

    def spaced(self, text):
        """The text with blanks and comments between its tokens."""
        few, found = self.random.choice([0.9, 0.3, 0.0]), ""
        for token in TOKEN.findall(text):
            if found and self.chance(0.02):
                found += f" {self.random.choice(COMMENTS)} "
            elif found and (is_word(found[-1]) and is_word(token) or self.random.random() >= few):
                found += " " if few else self.random.choice([" ", "  ", "\n", "\t"])
            found += token
        return found


def is_word(text):
    return text[0] == "_" or text[0].isalnum()


def reached(path, leaves):
    return [Leaf(path + leaf.path, leaf.part) for leaf in leaves]


def elements(counts):
    """The elements of an array of arrays."""
    if not counts:
        return [""]
    return [f"[{i}]{rest}" for i in range(counts[0]) for rest in elements(counts[1:])]


def prototypes(random, start, count):
    """So many, whose functions differ in their names: the first has this number."""
    return [Drawn(random, number).drawn() for number in range(start, start + count)]
