"""A failing signature in its smallest form, and where a compiler puts what it passes."""

import batch
import cases
import places
from signature import Array, Signature, is_variadic_fault, spread

STEPS = 30


def smaller_types(kind):
    """The types that are one step smaller: an element left out, in place of the whole, or itself made smaller. An array
    stands in place of no whole: the first of its elements does."""
    if isinstance(kind, str):
        return
    for element in kind:
        yield spread(element)[0]
    for i, element in enumerate(kind):
        if len(kind) > 1:
            yield kind[:i] + kind[i + 1:]
        for smaller in smaller_elements(element):
            yield kind[:i] + (smaller,) + kind[i + 1:]


def smaller_elements(kind):
    """The same of a type that stands in a struct or an array: an array of fewer, or of smaller ones, or its element."""
    if not isinstance(kind, Array):
        yield from smaller_types(kind)
        return
    yield kind.element
    for count in dict.fromkeys([kind.count // 2, kind.count - 1]):
        if count:
            yield Array(kind.element, count)
    for smaller in smaller_elements(kind.element):
        yield Array(smaller, kind.count)


def smaller_signatures(signature):
    """The signatures that are one step smaller."""
    result, arguments, fixed = signature.result, signature.arguments, signature.fixed
    if result != "void":
        yield Signature("void", arguments, fixed)
    for smaller in smaller_types(result):
        yield Signature(smaller, arguments, fixed)
    for i, kind in enumerate(arguments):
        left = None if fixed is None else fixed - (i < fixed)
        if left != 0:
            yield Signature(result, arguments[:i] + arguments[i + 1:], left)
        for smaller in smaller_types(kind):
            if fixed is None or i < fixed or not is_variadic_fault(smaller):
                yield Signature(result, arguments[:i] + (smaller,) + arguments[i + 1:], fixed)
    if fixed is not None:
        yield Signature(result, arguments)


def shrunk(program, target, compiler, signature, direction, is_failure, compared, folder, optimised):
    """The smallest signature found that still fails, with its plan, the layouts, the reasons, the program that has it,
    and its number there. Each step compiles all that are one smaller, and goes on with the first that fails.
    `compared` gives what is wrong in each case, and `is_failure` says whether that is no listed difference."""
    found = None
    for step in range(STEPS):
        candidates = [signature] if step == 0 else list(dict.fromkeys(smaller_signatures(signature)))[:200]
        if not candidates:
            break
        plans = places.plans(program, target, candidates)
        layouts = places.layouts(program, candidates)
        built = batch.built(target, compiler, candidates, f"{folder}/{target}-{compiler}-{step}", [optimised])
        wrong = compared(built, dict(enumerate(zip(candidates, plans))), layouts)
        failing = [(index, way) for (index, way), reasons in sorted(wrong.items())
                   if way == direction and reasons and is_failure(candidates[index], plans[index], way, reasons)]
        if not failing:
            break
        index = failing[0][0]
        signature = candidates[index]
        found = signature, plans[index], layouts, wrong[failing[0]], built, index
    return found


ROUNDS = 4


def seen(found, target, seed):
    """Where compiled code has each argument at the entry, and the result at the return: lines as `place` writes them.

    It is given random bytes a few times. A byte's place is one where it stands each time: a register, what a place
    holds the address of (ref), or the stack. Where the call itself goes wrong the result is not found."""
    signature, plan, layouts, _, built, index = found
    entries, returns = [], []
    for number in range(ROUNDS):
        values, result = cases.values_for(signature, number, f"{seed} seen")
        entry = [*cases.head("enter", index, None, values, result), "show", "go", "end", ""]
        entries.append((values, built.show("\n".join(entry))))
        call = cases.call_lines(target, index, signature, plan, layouts, values, result)
        call = [*call[:call.index("go") + 1], "show", "end", ""]
        returns.append(([result], built.show("\n".join(call))))
    lines = [f"arg {i} {places_seen(kind, layouts[kind], i, entries)}" for i, kind in enumerate(signature.arguments)]
    return [*lines, f"ret {places_seen(signature.result, layouts[signature.result], 0, returns)}"]


def places_seen(kind, layout, which, rounds):
    """Runs of the bytes of a value: PLACE:OFF+LEN, with the byte of the place in brackets where it is not the first."""
    leaves = [cases.leaf_bytes(kind, layout, values[which]) for values, _ in rounds]
    runs = []
    for k, (offset, _) in enumerate(leaves[0]):
        fits = [where for where in rounds[0][1]
                if all(image.get(where) == leaf[k][1] for leaf, (_, image) in zip(leaves, rounds))]
        name, byte = fits[0] if fits else (None, 0)
        last = runs[-1] if runs else None
        if last and last[0] == name and last[1] + last[3] == byte and last[2] + last[3] == offset:
            last[3] += 1
        elif name:
            runs.append([name, byte, offset, 1])
    texts = [f"{name}{f'[{byte}]' if byte else ''}:{offset}+{length}" for name, byte, offset, length in runs]
    return " ".join(texts) or ("void" if kind == "void" else "not found")
