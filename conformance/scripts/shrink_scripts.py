"""A script that two programs run differently, in a smaller form: nothing can be left out, or the tries are used up."""

import copy

STEPS = 400


def bodies(script):
    return [*(function["body"] for function in script["functions"]), script["main"]]


def without_a_move(script):
    for number, body in enumerate(bodies(script)):
        for at in reversed(range(len(body) - 1)):
            smaller = copy.deepcopy(script)
            del bodies(smaller)[number][at]
            yield smaller


def without_a_condition(script):
    for number, body in enumerate(bodies(script)):
        for at, move in enumerate(body):
            if "when" in move:
                smaller = copy.deepcopy(script)
                del bodies(smaller)[number][at]["when"]
                yield smaller


def without_a_function(script):
    named = {move["make"] for body in bodies(script) for move in body if "make" in move}
    for at, function in enumerate(script["functions"]):
        if function["name"] not in named:
            yield script | {"functions": script["functions"][:at] + script["functions"][at + 1:]}


def without_a_signature(script):
    def used(part):
        return [each["sig"] for each in part if "sig" in each]

    numbers = used(script["functions"]) + [number for body in bodies(script) for number in used(body)]
    for at in range(len(script["signatures"])):
        if at not in numbers:
            smaller = copy.deepcopy(script)
            del smaller["signatures"][at]
            for part in (smaller["functions"], *bodies(smaller)):
                for each in part:
                    if each.get("sig", 0) > at:
                        each["sig"] -= 1
            yield smaller


def smaller_values(value):
    """The values that are one step simpler. Whether they fit is for the program to say."""
    if isinstance(value, int) and value not in (0, True):
        yield 0
    if isinstance(value, str) and value.strip("0"):
        yield from ("0", "0" * len(value))
    if isinstance(value, list):
        for i, inner in enumerate(value):
            for smaller in smaller_values(inner):
                yield value[:i] + [smaller] + value[i + 1:]
    if isinstance(value, dict):
        yield 0
        for word in ("add", "sub"):
            yield from value.get(word, [])
        if "of" in value:
            for smaller in smaller_values(value["of"][1]):
                yield {"of": [value["of"][0], smaller]}


def with_a_smaller_value(script):
    for number, body in enumerate(bodies(script)):
        for at, move in enumerate(body):
            for key in ("args", "print", "return", "user", "when"):
                for smaller in smaller_values(move[key]) if key in move else []:
                    wrong = copy.deepcopy(script)
                    bodies(wrong)[number][at][key] = smaller
                    yield wrong


WAYS = [without_a_move, without_a_function, without_a_signature, without_a_condition, with_a_smaller_value]


def shrunk(script, differs):
    """The script made smaller as long as it differs; `differs` answers False for one that is no script."""
    left = STEPS
    while True:
        for smaller in (each for way in WAYS for each in way(script)):
            left -= 1
            if differs(smaller):
                script = smaller
                break
            if left <= 0:
                return script
        else:
            return script
