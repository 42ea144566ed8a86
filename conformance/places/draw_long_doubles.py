"""Random signatures that have a long double or a complex number: those of draw.py, in which some scalars are exchanged.
The same seed gives the same signatures."""

import draw
from long_double import exchanged, has_any, layout_of
from signature import COMPLEX, Array, Signature, depth_of, elements_of

LARGEST_TYPE = 4096
DEEPEST = 14  # a complex number may be a struct, and a prototype's parentheses count too
LARGEST_ARGUMENTS = 1 << 16
LONG = ["longdouble"]
REAL = {"double": LONG, "float": LONG, "uint128": LONG, "sint128": LONG, "sint64": LONG}
PAIRS = {"double": ["longdouble", "longcomplex"], "float": ["longcomplex", "floatcomplex"],
         "uint128": ["longcomplex", "doublecomplex"], "sint32": LONG}
RESULTS = ["longdouble", "longdouble", "longcomplex", ("longdouble",), (("longdouble",),), (Array("longdouble", 1),),
           ("longdouble", "longdouble"), (Array("longdouble", 2),), ("longcomplex",), ("float", "longdouble"),
           "floatcomplex", "doublecomplex"]


def by_name(random):
    """By which each scalar of a type is another: all of a name alike, or each for itself."""
    table = random.choice([REAL, REAL, PAIRS])
    chosen = {name: random.choice(table[name]) for name in table if random.random() < 0.6}
    share = random.choice([1, 1, 0.4])
    return lambda name: chosen.get(name, name) if random.random() < share else name


def with_others(of, kind):
    """A type with its scalars exchanged."""
    if isinstance(kind, Array):
        return Array(with_others(of, kind.element), kind.count)
    return of(kind) if isinstance(kind, str) else tuple(with_others(of, element) for element in kind)


def size_of(kind):
    """A type's size where it is greatest."""
    return layout_of(exchanged(kind, lambda name: "binary128" if name not in COMPLEX else ("binary128",) * 2)).size


def any_other(random, kind, chance):
    """A type, or the same with others of its scalars, where it is not too large by them."""
    if kind == "void" or random.random() > chance:
        return kind
    other = with_others(by_name(random), kind)
    return other if size_of(other) <= LARGEST_TYPE and depth_of(other) <= DEEPEST else kind


def signature(random):
    """One that has a long double or a complex number somewhere."""
    while True:
        drawn = draw.signature(random)
        arguments = [any_other(random, kind, 0.5 if elements_of(kind) else 0.35) for kind in drawn.arguments]
        result = random.choice(RESULTS) if random.random() < 0.3 else any_other(random, drawn.result, 0.6)
        found = Signature(result, tuple(arguments), drawn.fixed)
        if (any(map(has_any, found.types())) and max(map(depth_of, found.types())) <= DEEPEST
                and sum(map(size_of, arguments)) <= LARGEST_ARGUMENTS):
            return found


def signatures(random, count):
    return [signature(random) for _ in range(count)]
