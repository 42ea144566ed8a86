"""Random scripts that are well typed: callbacks, recursion, closures made, passed and freed, structs by value.

Main first makes a closure of each function, in order, so that function k has the slot at 0x10000 + 64k. A function
calls only functions before it: by that address, by its user data, by a pointer that is passed to it, or by a closure
that it makes. So each run ends. Two functions call each other and themselves, as often as an argument says. Some
scripts stop: at a closure that was freed, at another signature, at a full stack or table, at the move limit.
"""

import draw
from declared import declaration, fixed_part
from draw import SCALARS, size_of
from signature import (
    FLOATING, INTEGERS, SIZES, WIDE, Array, Signature, elements_of, is_variadic_fault, json_of, object_of, with_elements
)

# Half of the scripts are of version 2: these have arrays, integers of 128 bits, and C declarations.
NARROW = [name for name in INTEGERS if name not in WIDE]
WHOLE = [*INTEGERS, "pointer"]
UNARY = ("sint64", ["sint64"], None)
APPLY = ("sint64", ["pointer", "sint64"], None)
SUM3 = ("sint64", ["sint64"] * 3, None)
HOARD = ("void", ["uint16"], None)
SLOTS = 0x10000
SMALL, LARGE, ALL_ARGUMENTS, MANY_ARGUMENTS = 160, 4096, 8000, 16000
SHOWN = 20  # of so many elements of one value a body may look at each


def slot(number):
    return SLOTS + 64 * number


def has(random, share):
    return random.random() < share


def of_64_bits(kind):
    """A type without arrays, whose integers of 128 bits are of 64."""
    return kind.replace("128", "64") if isinstance(kind, str) else tuple(map(of_64_bits, kind))


class Drawn:
    """One script as it grows."""

    def __init__(self, random, natives):
        self.random, self.natives = random, natives
        self.version = random.choice([1, 2])
        self.signatures, self.functions = [], []
        self.callbacks = {}  # of a function: how it knows a pointer that it calls, and whose closure that is
        self.starts = []  # what main may begin with, beside calls of the functions
        for _ in range(random.randint(1, 5)):
            self.add_function()
        self.plain = len(self.functions)
        if natives:
            self.add_unary()
        if has(random, 0.4):
            self.add_recursion()
        if has(random, 0.2):
            self.add_self_freeing()
        if has(random, 0.1):
            self.add_hoarder()
        self.main = self.draw_main()

    def script(self):
        return {"version": self.version, "signatures": list(map(self.written, self.signatures)),
                "functions": self.functions, "main": self.main}

    def written(self, signature):
        """A signature as an object, or some that C can declare as a declaration."""
        result, arguments, fixed = signature
        one = Signature(result, tuple(arguments), fixed)
        is_declared = self.version == 2 and one == fixed_part(one) and has(self.random, 0.3)
        return declaration(one) if is_declared else object_of(one)

    def known_in(self, kind):
        """A type as the script's version has it: version 1 has no arrays and no integers of 128 bits."""
        return kind if self.version == 2 else of_64_bits(with_elements(kind))

    def draw_type(self):
        random = self.random
        if has(random, 0.5):
            return self.known_in(random.choice(SCALARS))
        most = LARGE if has(random, 0.05) else SMALL
        if most == LARGE and self.version == 2 and has(random, 0.3):
            return draw.largest(random)
        while size_of(kind := draw.struct(random)) > most:
            pass
        return self.known_in(kind)

    def draw_result(self):
        return "void" if has(self.random, 0.2) else self.draw_type()

    def draw_signature(self):
        random = self.random
        if self.signatures and has(random, 0.2):
            return random.choice(self.signatures)
        arguments = [self.draw_type() for _ in range(random.choice([0, 1, 2, 3, 4, 5, 6, 7, 9]))]
        if has(random, 0.2):
            arguments = list(map(self.known_in, draw.arguments(random)))
        most = ALL_ARGUMENTS
        if self.version == 2 and has(random, 0.01):
            most = MANY_ARGUMENTS
            arguments = [draw.largest(random) for _ in range(3)] + arguments
        while len(arguments) >= draw.MOST_ARGUMENTS or sum(map(size_of, arguments)) > most:
            arguments.pop()
        fixed = None
        if arguments and has(random, 0.2):
            fixed = random.randint(1, len(arguments))
            arguments[fixed:] = ["double" if is_variadic_fault(kind) else kind for kind in arguments[fixed:]]
        return self.draw_result(), arguments, fixed

    def number_of(self, signature):
        if signature not in self.signatures:
            self.signatures.append(signature)
        return self.signatures.index(signature)

    def add(self, signature, moves, name=None):
        name = name or f"f{len(self.functions)}"
        self.functions.append({"name": name, "sig": self.number_of(signature), "body": moves})
        return len(self.functions) - 1

    def signature(self, number):
        return self.signatures[self.functions[number]["sig"]]

    def add_function(self):
        """A function with prints and calls; perhaps it is given a pointer that it calls, and perhaps frees."""
        random, number = self.random, len(self.functions)
        result, arguments, fixed = self.draw_signature()
        way = random.choice([None, "user", "argument", "freed argument"]) if number else None
        if way in ("argument", "freed argument"):
            arguments = ["pointer", *arguments]
            fixed = fixed and fixed + 1
        body = Moves(self, arguments, result)
        for _ in range(random.randint(0, 4)):
            body.add_print()
            if number and has(random, 0.5) and body.calls < 2:
                body.add_call(random.randrange(number))
            if has(random, 0.05):
                body.add_return(self.condition(body))
        if way:
            called = random.randrange(number)
            self.callbacks[number] = way, called
            body.add_call(called, {"user": True} if way == "user" else {"arg": 0})
        if way == "freed argument":
            body.moves.append({"free": {"arg": 0}})
        body.add_return()
        self.add((result, arguments, fixed), body.moves)

    def condition(self, body):
        return body.typed(self.known_in(self.random.choice(WHOLE)))

    def add_unary(self):
        """What the natives call."""
        body = Moves(self, UNARY[1], UNARY[0])
        body.add_print()
        if has(self.random, 0.5):
            body.add_call(self.random.randrange(self.plain))
        body.add_return()
        number = self.add(UNARY, body.moves)
        for native, of in (("apply", APPLY), ("twice", APPLY), ("sum3", SUM3)):
            self.starts.append(lambda main, native=native, of=of: main.call_native(native, of, number))

    def add_recursion(self):
        """Two functions that have both pointers as arguments and call each other, or themselves, by these."""
        random = self.random
        counter = random.choice(NARROW)
        others = [self.draw_type() for _ in range(random.randint(0, 4))]
        deep = has(random, 0.3)
        if deep and has(random, 0.7):
            others += [self.known_in(draw.large(random))] * 2  # so that the stack ends before the moves do
        signature = self.draw_result(), ["pointer", "pointer", counter, *others], None
        count = random.choice([1, 1, 2])
        numbers = []
        for _ in range(2):
            body = Moves(self, signature[1], signature[0])
            body.add_print()
            for _ in range(count):
                first = random.randrange(2)
                values = [{"arg": first}, {"arg": 1 - first}, {"sub": [{"arg": 2}, 1]}, *map(body.value, others)]
                body.add_named({"when": {"arg": 2}, "call": {"arg": first}, "sig": self.number_of(signature),
                                "args": values}, signature[0])
            body.add_print()
            body.add_return()
            numbers.append(self.add(signature, body.moves))
        times = random.randint(0, 20 if count == 1 else 4)
        if deep:
            times = min(2000 if count == 1 else 13, (1 << 8 * SIZES[counter] - counter.startswith("s")) - 1)

        def start(main):
            values = [slot(numbers[0]), slot(numbers[1]), times, *map(main.value, others)]
            main.add_named({"call": slot(numbers[0]), "sig": self.number_of(signature), "args": values}, signature[0])

        self.starts.append(start)

    def add_self_freeing(self):
        """A function that frees the closure by which it is called, and makes another of a function before it."""
        signature = self.draw_result(), ["pointer"], None
        body = Moves(self, signature[1], signature[0])
        body.moves.append({"free": {"arg": 0}})
        body.add_make(self.random.randrange(self.plain))
        body.add_return()
        number = self.add(signature, body.moves)

        def start(main):
            made = main.add_make(number)
            main.add_named({"call": made, "sig": self.number_of(signature), "args": [made]}, signature[0])

        self.starts.append(start)

    def add_hoarder(self):
        """A function that makes closures of itself, one inside another, as many as its argument says."""
        number = len(self.functions)
        again = {"when": {"arg": 0}, "call": {"res": "p"}, "sig": self.number_of(HOARD),
                 "args": [{"sub": [{"arg": 0}, 1]}]}
        body = [{"make": "hoarder", "as": "p"}, again, {"return": None}]
        if has(self.random, 0.3):
            body.insert(2, {"free": {"res": "p"}})
        self.add(HOARD, body, "hoarder")
        times = self.random.choice([5, 40, 300])
        self.starts.append(lambda main: main.add_named(
            {"call": slot(number), "sig": self.number_of(HOARD), "args": [times]}, "void"))

    def draw_main(self):
        random = self.random
        body = Moves(self, [], "void")
        for number, function in enumerate(self.functions):
            way, called = self.callbacks.get(number, (None, 0))
            user = slot(called) if way == "user" else random.choice([0, random.getrandbits(64)])
            body.moves.append({"make": function["name"], "user": user, "as": f"p{number}"})
            body.named[f"p{number}"] = "pointer"
        for _ in range(random.randint(1, 4)):
            number = random.randrange(self.plain)
            body.add_call(number, {"res": f"p{number}"})
            body.add_print()
            if self.starts and has(random, 0.6):
                random.choice(self.starts)(body)
                body.add_print()
        if has(random, 0.3):
            freed = random.randrange(self.plain)
            body.moves.append({"free": slot(freed)})
            if has(random, 0.7):
                body.add_make(random.randrange(self.plain))
            body.add_call(random.randrange(self.plain), random.choice([slot(freed), slot(freed), slot(freed) + 8]))
        body.moves.append({"return": None})
        return body.moves


class Moves:
    """The moves of one body, and the results that they have named."""

    def __init__(self, drawn, arguments, result):
        self.drawn, self.random, self.arguments, self.result = drawn, drawn.random, arguments, result
        self.moves, self.named, self.calls = [], {}, 0

    def add_named(self, move, kind):
        """Adds the move, with a name for its result; the name as a value, where there is one."""
        if kind != "void":
            name = f"r{len(self.moves)}"
            move["as"] = name
            self.named[name] = kind
        self.moves.append(move)
        return {"res": move["as"]} if "as" in move else None

    def add_print(self):
        arrays = [value for value, each in self.values() if isinstance(each, Array)]
        shown = self.random.choice(arrays) if arrays and has(self.random, 0.3) else self.typed(self.drawn.draw_type())
        move = {"print": shown}
        if has(self.random, 0.1):
            move["when"] = self.drawn.condition(self)
        self.moves.append(move)

    def add_make(self, number):
        """Makes one more closure of a function; a callback by user data is given its pointer."""
        way, called = self.drawn.callbacks.get(number, (None, 0))
        user = slot(called) if way == "user" else self.value("pointer")
        return self.add_named({"make": self.drawn.functions[number]["name"], "user": user}, "pointer")

    def add_call(self, number, pointer=None):
        """Calls a function, by this pointer, by main's closure or by one of its own, which it then frees."""
        result, arguments, _ = self.drawn.signature(number)
        way, called = self.drawn.callbacks.get(number, (None, 0))
        values = [self.value(kind) for kind in arguments]
        own = pointer is None and has(self.random, 0.2)
        if way == "argument":
            values[0] = slot(called)
        if way == "freed argument":
            values[0] = self.add_make(called)
        if own:
            pointer = self.add_make(number)
        move = {"call": slot(number) if pointer is None else pointer, "sig": self.drawn.functions[number]["sig"],
                "args": values}
        if has(self.random, 0.2):
            move["when"] = self.drawn.condition(self)
        self.calls += 1
        self.add_named(move, result)
        if own and has(self.random, 0.8):
            self.moves.append({"free": pointer})

    def call_native(self, native, signature, unary):
        """Makes a native and calls it, on the function that it is to call or, rarely, on any pointer."""
        made = self.add_named({"make": native}, "pointer")
        values = [self.value(kind) for kind in signature[1]]
        if signature == APPLY:
            values[0] = self.value("pointer") if has(self.random, 0.05) else slot(unary)
        self.add_named({"call": made, "sig": self.drawn.number_of(signature), "args": values}, signature[0])

    def add_return(self, condition=None):
        move = {"return": None if self.result == "void" else self.value(self.result)}
        if condition:
            move["when"] = condition
        self.moves.append(move)

    def values(self):
        """Typed values that the body has, with their types: arguments, results, and elements of these."""
        found = [({"arg": i}, each) for i, each in enumerate(self.arguments)]
        found += [({"res": name}, each) for name, each in self.named.items()]
        for value, each in found:
            parts = elements_of(each)
            shown = range(len(parts)) if len(parts) <= SHOWN else self.random.sample(range(len(parts)), SHOWN)
            found += [({"field": [value, i]}, parts[i]) for i in shown]
        return found

    def known(self, kind):
        return [value for value, each in self.values() if each == kind]

    def typed(self, kind):
        known = self.known(kind)
        if kind == "pointer" and has(self.random, 0.2):
            return {"user": True}
        if known and has(self.random, 0.8):
            return self.random.choice(known)
        return {"of": [json_of(kind), self.value(kind)]}

    def value(self, kind):
        random = self.random
        known = self.known(kind)
        if known and has(random, 0.6):
            return random.choice(known)
        if elements := elements_of(kind):
            return [self.value(element) for element in elements]
        if kind in FLOATING:
            return random.randbytes(SIZES[kind]).hex()
        if kind != "pointer" and has(random, 0.2):
            return {random.choice(["add", "sub"]): [self.value(kind), self.literal(kind)]}
        if has(random, 0.2):
            return {"cast": self.typed(self.drawn.known_in(random.choice(WHOLE)))}
        return self.literal(kind)

    def literal(self, kind):
        bits = 8 * SIZES[kind]
        number = self.random.choice([0, 1, (1 << bits) - 1, 1 << (bits - 1), self.random.getrandbits(bits)])
        number -= (1 << bits) * (kind.startswith("s") and number >> (bits - 1))
        return str(number) if kind in WIDE else number


def script(random, natives):
    return Drawn(random, natives).script()
