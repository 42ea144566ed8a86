"""Wrong runs, to see that a comparison of runs finds them: each has ffi3 run a script that is changed in one way.

What the changed script prints is what a program with that error would print of the script as it is. It is compared with
what the C program of the script as it is prints, and must differ. Each error is a function that changes a copy of a
script; where it has nothing to change, the script is left as it is. Errors of traces change the lines of a traced run.
"""

import copy

from draw import size_of
from signature import FLOATING, WIDE, Array, depth_of, elements_of
from translate import read_signature

TRIED = 200


def bodies(script):
    return [*(function["body"] for function in script["functions"]), script["main"]]


def moves(script, kind):
    return [move for body in bodies(script) for move in body if kind in move]


def nodes(value):
    """Every object and array of a script's part, the part itself first."""
    if isinstance(value, (dict, list)):
        yield value
        for inner in value.values() if isinstance(value, dict) else value:
            yield from nodes(inner)


def sum_with_one_more(script):
    """A sum of a constant has one more."""
    for node in nodes(bodies(script)):
        if isinstance(node, dict) and "add" in node and isinstance(node["add"][1], int):
            node["add"][1] += 1


def arguments_exchanged(script):
    """Of a callback, by an argument or by user data, the last two arguments of one type are exchanged."""
    for move in moves(script, "call"):
        kinds = read_signature(script["signatures"][move["sig"]]).arguments
        if isinstance(move["call"], dict) and set(move["call"]) & {"arg", "user"}:
            pairs = [(a, b) for b in range(len(kinds)) for a in range(b) if kinds[a] == kinds[b]]
            for a, b in pairs[-1:]:
                move["args"][a], move["args"][b] = move["args"][b], move["args"][a]


def zero(kind):
    """The value of a type that is zero in all its leaves."""
    if parts := elements_of(kind):
        return [zero(one) for one in parts]
    return "0" * (8 if kind == "float" else 16) if kind in FLOATING else 0


def element_dropped(script):
    """The last element of a struct is not passed: it is zero."""
    for move in moves(script, "call"):
        for i, kind in enumerate(read_signature(script["signatures"][move["sig"]]).arguments):
            if isinstance(move["args"][i], list):
                move["args"][i][-1] = zero(kind[-1])


def element_of_an_array_dropped(script):
    """The last element of an array is not passed: it is zero."""
    def without_last(kind, value):
        if isinstance(kind, Array) and isinstance(value, list):
            return [*value[:-1], zero(kind.element)]
        return [without_last(*each) for each in zip(elements_of(kind), value)] if isinstance(value, list) else value

    for move in moves(script, "call"):
        kinds = read_signature(script["signatures"][move["sig"]]).arguments
        move["args"] = [without_last(kind, value) for kind, value in zip(kinds, move["args"])]


def upper_half_lost(script):
    """An integer of 128 bits is passed without its upper half."""
    for move in moves(script, "call"):
        for i, kind in enumerate(read_signature(script["signatures"][move["sig"]]).arguments):
            if kind in WIDE and isinstance(move["args"][i], str):
                move["args"][i] = str(int(move["args"][i]) % (1 << 64))


def argument_of_many_bytes_dropped(script):
    """Of more than 8,192 bytes of arguments the last of more than 2,048 bytes is not passed: it is zero."""
    for move in moves(script, "call"):
        kinds = read_signature(script["signatures"][move["sig"]]).arguments
        sizes = list(map(size_of, kinds))
        if sum(sizes) > 8192 and max(sizes) > 2048:
            last = [i for i, size in enumerate(sizes) if size > 2048][-1]
            move["args"][last] = zero(kinds[last])


def deepest_dropped(script):
    """A struct 16 deep is passed without its leaves: they are zero."""
    for move in moves(script, "call"):
        for i, kind in enumerate(read_signature(script["signatures"][move["sig"]]).arguments):
            if depth_of(kind) == 16:
                move["args"][i] = zero(kind)


def freed_closure_called(script):
    """A free does nothing, so that a freed closure is still called."""
    for body in bodies(script):
        body[:] = [move for move in body if "free" not in move]


def user_data_of_another(script):
    """A closure has the user data of the one that main makes before it."""
    users = [move.get("user", 0) for move in script["main"] if "make" in move]
    for move, user in zip([move for move in script["main"] if "make" in move][1:], users):
        if isinstance(user, int):
            move["user"] = user


def condition_left_out(script):
    """A move is done whatever its condition says."""
    for body in bodies(script):
        for move in body[:-1]:
            if "when" in move and "call" not in move:
                del move["when"]


def function_of_the_next(script):
    """A closure has the function that is made after it in the same body, where both have one signature."""
    signatures = {function["name"]: function["sig"] for function in script["functions"]}
    for body in bodies(script):
        makes = [move for move in body if move.get("make") in signatures]
        for move, following in zip(makes, makes[1:]):
            if signatures[move["make"]] == signatures[following["make"]]:
                move["make"] = following["make"]


def twice_once(script):
    """The native twice calls once."""
    if "twice" not in [function["name"] for function in script["functions"]]:
        for move in moves(script, "make"):
            if move["make"] == "twice":
                move["make"] = "apply"


ERRORS = [sum_with_one_more, arguments_exchanged, element_dropped, element_of_an_array_dropped, upper_half_lost,
          argument_of_many_bytes_dropped, deepest_dropped, freed_closure_called, user_data_of_another,
          condition_left_out, function_of_the_next]
ERRORS_OF_NATIVES = [twice_once]


def starts(lines, word):
    return [at for at, line in enumerate(lines) if line.startswith(f"{word} ")]


def leave_before_the_end(lines):
    """A leave is told before what the call does."""
    for at in starts(lines, "leave")[:1]:
        entered = [before for before in starts(lines, "enter") if before < at][-1]
        return lines[:entered + 2] + lines[at:at + 2] + lines[entered + 2:at] + lines[at + 2:]
    return lines


def keep_of_another_event(lines):
    """The last leave has the registers of another event."""
    for at in starts(lines, "leave")[-1:]:
        return [*lines[:at + 1], lines[at + 1].replace("a5a5", "a5a6", 1), *lines[at + 2:]]
    return lines


def arguments_of_another_call(lines):
    """An enter tells the arguments of the one after it."""
    told = starts(lines, "enter")[:2]
    if len(told) == 2:
        arguments = [lines[at].rsplit(" ", 1) for at in told]
        lines = [*lines[:told[0]], f"{arguments[0][0]} {arguments[1][1]}", *lines[told[0] + 1:]]
    return lines


def stack_pointer_of_the_callee(lines):
    """A leave tells the stack pointer that its enter tells."""
    for at in starts(lines, "leave")[:1]:
        entered = [before for before in starts(lines, "enter") if before < at][-1]
        words = lines[at].split(" ")
        words[2] = lines[entered].split(" ")[3]
        return [*lines[:at], " ".join(words), *lines[at + 1:]]
    return lines


def print_left_out(lines):
    """A traced run leaves a print out."""
    prints = [at for at, line in enumerate(lines) if line.split(" ")[0] not in ("enter", "leave", "keep", "stop:")]
    return [line for at, line in enumerate(lines) if at not in prints[:1]]


ERRORS_OF_TRACES = [leave_before_the_end, keep_of_another_event, arguments_of_another_call, stack_pointer_of_the_callee,
                    print_left_out]


def changed(error, script):
    """The script with the error, or None where there is nothing to change. One that is then refused shows nothing."""
    wrong = copy.deepcopy(script)
    error(wrong)
    return None if wrong == script else wrong
