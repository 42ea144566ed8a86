"""Random signatures, weighted to the edges of the standards' rules. The same seed gives the same signatures."""

import declaration
from signature import FLOATING, SIZES, Array, Signature, is_variadic_fault

SCALARS = list(SIZES)
MOST_ARGUMENTS = 64
MOST_NESTED = 3  # arrays
LARGEST_TYPE, LARGEST_ARGUMENTS = 4096, 8192
DEEPEST = 16  # structs and arrays
# What the arguments of a signature with more than 8,192 bytes may have together.
MANY_BYTES = [12288, 24576, 65536]


def scalar(random):
    return random.choice(SCALARS)


def homogeneous(random):
    """One to five floats or doubles; one in three is spoilt by another scalar; one in three is nested."""
    leaves = [random.choice(FLOATING)] * random.randint(1, 5)
    if random.random() < 0.3:
        leaves[random.randrange(len(leaves))] = scalar(random)
    return nested(random, leaves)


def mixed_pair(random):
    """A floating and another leaf, in either order; some with a third."""
    leaves = [random.choice(FLOATING), scalar(random)]
    random.shuffle(leaves)
    if random.random() < 0.2:
        leaves.append(scalar(random))
    return nested(random, leaves)


def about_16_bytes(random):
    """Scalars up to 16 bytes; one in three has one more."""
    leaves, size, limit = [], 0, random.choice([8, 16, 16])
    while size < limit:
        leaf = random.choice([leaf for leaf in SCALARS if size + SIZES[leaf] <= limit])
        leaves.append(leaf)
        size += SIZES[leaf]
    if random.random() < 0.3:
        leaves.append(scalar(random))
    return nested(random, leaves)


def any_struct(random):
    return nested(random, [scalar(random) for _ in range(random.choice([1, 1, 2, 2, 3, 3, 4, 5, 7, 12]))])


def large(random):
    return nested(random, [scalar(random) for _ in range(random.randint(10, 60))])


def nested(random, leaves):
    """A struct that has these leaves; one in three has structs inside."""
    if random.random() < 0.67:
        return tuple(leaves)
    if len(leaves) == 1:
        return (nested(random, leaves),)
    start = random.randrange(len(leaves))
    end = random.randint(start + 1, len(leaves))
    if end - start == len(leaves):
        return tuple(leaves)
    return (*leaves[:start], nested(random, leaves[start:end]), *leaves[end:])


def padded(random):
    """A struct whose end is padding: scalars, and then a narrower one."""
    wide = random.choice([name for name in SCALARS if SIZES[name] > 1])
    narrow = random.choice([name for name in SCALARS if SIZES[name] < SIZES[wide]])
    return nested(random, [*(scalar(random) for _ in range(random.choice([0, 0, 1, 2]))), wide, narrow])


def array(random, nesting=1):
    """An array of scalars, of structs or of arrays: of few elements, or of some bytes, or nearly."""
    roll = random.random() if nesting < MOST_NESTED else 0
    if roll < 0.7:
        element = scalar(random)
    elif roll < 0.85:
        element = tuple(scalar(random) for _ in range(random.randint(1, 3)))
    elif roll < 0.92:
        element = array(random, nesting + 1)
    else:
        element = array(random, nesting + 1), scalar(random)
    whole = random.choice([8, 16, 16, 24, 32]) // size_of(element)
    counts = [1, 2, 3, 4, whole, whole + 1] if nesting > 1 or random.random() < 0.97 else [random.randint(20, 200)]
    return Array(element, max(1, random.choice(counts)))


def largest(random):
    """A struct of 4,096 bytes, or some fewer, or one that ends in padding there; wide elements come most often."""
    element = random.choices(SCALARS, [SIZES[name] for name in SCALARS])[0]
    if random.random() < 0.3:
        element = random.choice([(element, element), Array(element, 2), (Array(element, 2),)])
    count = LARGEST_TYPE // size_of(element)
    return random.choice([(Array(element, count),), (Array(element, count - 1),), (Array(element, count - 1), "uint8"),
                          (element, Array(element, count - 1))])


def of_arrays(random):
    """One to three arrays, some with scalars beside them."""
    chosen = [array(random) for _ in range(random.choice([1, 1, 2, 3]))]
    for _ in range(random.choice([0, 0, 1, 2])):
        chosen.insert(random.randint(0, len(chosen)), scalar(random))
    return nested(random, chosen) if size_of(tuple(chosen)) <= LARGEST_TYPE else of_arrays(random)


def with_arrays(random, kind):
    """The struct with most runs of one type written as arrays, and some single elements as arrays of one."""
    if isinstance(kind, (str, Array)):
        return kind
    runs = []
    for element in kind:
        element = with_arrays(random, element)
        if runs and runs[-1][0] == element and random.random() < 0.8:
            runs[-1][1] += 1
        else:
            runs.append([element, 1])
    found = []
    for element, count in runs:
        found += [Array(element, count)] if random.random() < (0.9 if count > 1 else 0.2) else [element] * count
    return tuple(found)


def deep(random):
    """A struct of structs, and of some arrays, 16 deep or nearly; beside some of them stands a scalar."""
    kind, levels, most = (scalar(random),), 1, random.choice([DEEPEST - 2, DEEPEST - 1, DEEPEST, DEEPEST])
    while levels < most:
        if levels + 2 <= most and random.random() < 0.2:
            kind, levels = (Array(kind, random.choice([1, 1, 2])),), levels + 2
        else:
            kind, levels = random.choice([(kind,), (kind,), (kind, scalar(random)), (scalar(random), kind)]), levels + 1
    return kind if size_of(kind) <= LARGEST_TYPE else deep(random)


STRUCTS = [homogeneous, mixed_pair, about_16_bytes, any_struct, large, of_arrays, padded, largest]
WEIGHTS = [60, 60, 60, 40, 10, 60, 20, 1]


def struct(random):
    if random.random() < 0.03:
        return deep(random)
    chosen = random.choices(STRUCTS, WEIGHTS)[0](random)
    return with_arrays(random, chosen) if random.random() < 0.4 else chosen


def any_type(random):
    return scalar(random) if random.random() < 0.5 else struct(random)


def result(random):
    roll = random.random()
    return "void" if roll < 0.2 else scalar(random) if roll < 0.4 else struct(random)


def size_of(kind):
    """A type's size, to keep frames small."""
    return declaration.size_of(kind)[0]


def of_many_bytes(random):
    """Arguments of more than 8,192 bytes together: of two types of 4,096 bytes or nearly, and of any between them."""
    types, most, chosen, size = [largest(random), largest(random)], random.choice(MANY_BYTES), [], 0
    while len(chosen) < MOST_ARGUMENTS:
        kind = random.choice(types) if random.random() < 0.6 else any_type(random)
        if size + size_of(kind) > most:
            break
        chosen.append(kind)
        size += size_of(kind)
    return chosen if size > LARGEST_ARGUMENTS else of_many_bytes(random)


def arguments(random, is_large=False):
    """Some that use registers up, or nearly, and then some of any type; or, where there may be, many bytes of them."""
    if is_large and random.random() < 0.01:
        return of_many_bytes(random)
    chosen = []
    roll = random.random()
    if roll < 0.35:
        chosen += [random.choice(["sint64", "uint64", "pointer", "uint8", "sint16"])] * random.choice([4, 5, 6, 7, 8])
    if 0.2 < roll < 0.55:
        chosen += [random.choice(FLOATING)] * random.choice([5, 6, 7, 8])
    if random.random() < 0.5:
        random.shuffle(chosen)
    chosen += [any_type(random) for _ in range(random.choice([0, 1, 1, 2, 2, 3, 3, 4, 5, 6, 8]))]
    if random.random() < 0.02:
        chosen += [any_type(random) for _ in range(MOST_ARGUMENTS)]
    while len(chosen) > MOST_ARGUMENTS or sum(map(size_of, chosen)) > LARGEST_ARGUMENTS:
        chosen.pop()
    return chosen


def signature(random):
    chosen = arguments(random, True)
    fixed = None
    if chosen and random.random() < 0.25:
        fixed = random.randint(1, len(chosen))
        promoted = {"float": "double", "uint8": "uint32", "uint16": "uint32", "sint8": "sint32", "sint16": "sint32"}
        chosen[fixed:] = [promoted[kind] if is_variadic_fault(kind) else kind for kind in chosen[fixed:]]
    return Signature(result(random), tuple(chosen), fixed)


def signatures(random, count):
    return [signature(random) for _ in range(count)]
