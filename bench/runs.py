"""What the other files of this folder time: scripts that do exactly so many moves, up to the limit of 10,000, scripts
of large types, long declarations, and how long a process takes for one."""

import json
import os
import re
import subprocess
import sys
from pathlib import Path

BUILT = Path(__file__).resolve().parent.parent / "crates/ffi3/out/ffi3"
STACK = 1048576
LARGEST = 4096
ROUNDS = 25
FLAT = {"ret": "sint32", "args": ["sint32"]}
NESTED = {"ret": "uint64", "args": ["uint64"] * 7}

# Forms of a long declaration: what stands before, again and again, and behind; and what the answer of `cdecl` begins with.
# `cplace` names the argument that has the fault of a type, in each of them argument 0.
DEEP = "struct{" * 15
FORMS = {
    "a name": ("int f", "f", "(int)", "sint32(sint32)"),
    "blanks": ("int f(int)", " ", ";", "sint32(sint32)"),
    "stars": ("void f(int*", "*", ")", "void(pointer)"),
    "parameters": ("int f(int", ",int", ")", "ffi3: too many arguments: "),
    "members": ("void f(struct{", "int a;", "}s)", "ffi3: too large: "),
    "members behind a star": ("void f(struct{", "int a;", "}*s)", "void(pointer)"),
    "members in 16 structs": (f"void f({DEEP}struct{{", "int a;", "}s;" * 15 + "}s)", "ffi3: too large: "),
    "structs behind stars": ("void f(struct{", "struct{int a;}*b;", "}*s)", "void(pointer)"),
    "brackets": ("void f(struct{int a", "[1]", ";}s)", "ffi3: too deep"),
    "brackets behind a star": ("void f(struct{int a", "[1]", ";}*s)", "void(pointer)"),
}
# The same of what `cplace` reads beside these.
WIDE_FORMS = {
    "a comment": ("int f(int)/*", "*", "*/", "sint32(sint32)"),
    "qualifiers": ("", "const ", "int f(int)", "sint32(sint32)"),
    "attributes": ("int f(int)", "__attribute__((pure))", "", "sint32(sint32)"),
    "arrays of a parameter": ("void f(int a", "[1]", ")", "void(pointer)"),
    "parameters of a parameter": ("void f(void(*a)(char", ",char", "))", "void(pointer)"),
    "members with commas": ("void f(struct{int*a", ",*a", ";}s)", "ffi3: too large: "),
    "types behind the dots": ("int f(int,...,int", ",int", ")", "ffi3: too many arguments: "),
}


def program():
    """The program that the first word names, or the one that `./check` leaves."""
    return Path(sys.argv[1] if len(sys.argv) > 1 else BUILT).resolve()


def text_of(signature, body, main):
    script = {"version": 1, "signatures": [signature], "functions": [{"name": "f", "sig": 0, "body": body}],
              "main": [{"make": "f", "as": "f"}, *main, {"return": None}]}
    return json.dumps(script, separators=(",", ":"))


def prints(moves, conditions=False):
    """One body that prints: a move each, with a condition where asked."""
    move = {"print": {"res": "f"}}
    if conditions:
        move["when"] = {"res": "f"}
    return text_of(FLAT, [{"return": 0}], [move] * (moves - 2))


def calls(moves, conditions=False):
    """One body that calls a closure: two moves for each call, each with a condition where asked."""
    call = {"call": {"res": "f"}, "sig": 0, "args": [41]}
    back = {"return": {"add": [{"arg": 0}, 1]}}
    body = [back]
    if conditions:
        call["when"] = {"res": "f"}
        body = [back | {"when": {"arg": 0}}, back]
    return text_of(FLAT, body, [call] * (moves // 2 - 1))


def nested(moves, deepest):
    """Calls inside calls, as deep as this, and as often as makes so many moves: two for each call."""
    again = {"when": {"arg": 0}, "call": {"user": True}, "sig": 0,
             "args": [{"sub": [{"arg": 0}, 1]}, *({"arg": i} for i in range(1, 7))]}
    left, main = moves // 2 - 1, []
    while left:
        depth = min(left, deepest)
        main.append({"call": {"res": "f"}, "sig": 0, "args": [depth - 1, 2, 3, 4, 5, 6, 7]})
        left -= depth
    script = text_of(NESTED, [again, {"return": {"arg": 6}}], main)
    return script.replace('{"make":"f","as":"f"}', '{"make":"f","user":65536,"as":"f"}')


def functions(size):
    """A script of nearly so many bytes: functions with a print, a sum and a return, each made once by main."""
    def compact(part):
        return json.dumps(part, separators=(",", ":"))

    listed, makes, length = [], [], 200
    for k in range(size):
        function = {"name": f"f{k}", "sig": 0, "body": [{"print": {"arg": 0}, "when": {"arg": 0}},
                                                        {"return": {"add": [{"arg": 0}, k]}}]}
        make = {"make": f"f{k}", "as": f"c{k}"}
        length += len(compact(function)) + len(compact(make)) + 2
        if length > size:
            break
        listed.append(function)
        makes.append(make)
    return compact({"version": 1, "signatures": [FLAT], "functions": listed, "main": [*makes, {"return": None}]})


def types(elements, form):
    """A type of so many bytes: uint8 as often as that, written out, or as an array."""
    return {"struct": ["uint8"] * elements if form == "written out" else [{"array": ["uint8", elements]}]}


def large_types(elements, form, count):
    """A script of one signature with so many arguments of such a type."""
    signature = {"ret": "void", "args": [types(elements, form)] * count}
    return json.dumps({"version": 2, "signatures": [signature], "functions": [], "main": [{"return": None}]},
                      separators=(",", ":"))


def large_calls(elements, form, count):
    """A script that calls a function so many times, which gives its argument back, of such a type; and one that does
    the same moves with numbers in place of it."""
    kind = types(elements, form)
    value = list(range(250)) * (elements // 250 + 1)
    value = value[:elements] if form == "written out" else [value[:elements]]

    def script(kind, value):
        again = {"call": {"res": "f"}, "sig": 0, "args": [{"res": "r"}]}
        main = [{"make": "f", "as": "f"}, {"call": {"res": "f"}, "sig": 0, "args": [value], "as": "r"}, *[again] * count]
        return json.dumps({"version": 2, "signatures": [{"ret": kind, "args": [kind]}],
                           "functions": [{"name": "f", "sig": 0, "body": [{"return": {"arg": 0}}]}],
                           "main": [*main, {"return": None}]}, separators=(",", ":"))

    return script(kind, value), script("uint8", 1)


def declaration(form, size):
    """A declaration of nearly so many bytes."""
    start, part, end, _ = (FORMS | WIDE_FORMS)[form]
    return start + part * ((size - len(start) - len(end)) // len(part)) + end


def depth(program, target, stack=STACK):
    """How many calls of `nested` one inside another fill so many bytes of stack."""
    script = text_of(NESTED, [{"return": 0}], [])
    words = [program, "place", "--target", target]
    words = subprocess.run(words, input=script, text=True, stdout=subprocess.PIPE, check=True).stdout.split()
    return stack // int(words[words.index("need") + 1])


def seconds(words, script, statuses=(0,)):
    """The processor time of a process that is given the script: other work on the machine matters less to it."""
    running = subprocess.Popen(words, stdin=subprocess.PIPE, stdout=subprocess.DEVNULL,
                               stderr=None if statuses == (0,) else subprocess.DEVNULL)
    running.stdin.write(script.encode())
    running.stdin.close()
    _, status, used = os.wait4(running.pid, 0)
    running.returncode = os.waitstatus_to_exitcode(status)
    if running.returncode not in statuses:
        raise subprocess.CalledProcessError(running.returncode, words)
    return used.ru_utime + used.ru_stime


def times_of(work, statuses=(0,)):
    """The least time of each of these, the words and the script of a process. Each round does all of them in turn."""
    rounds = [{name: seconds(words, script, statuses) for name, (words, script) in work.items()} for _ in range(ROUNDS)]
    return {name: min(each[name] for each in rounds) for name in work}


def instructions_of(work, statuses=(0,)):
    """How many instructions each of these takes, words and a script, however busy the machine is: callgrind counts."""
    counting = ["valgrind", "--tool=callgrind", "--callgrind-out-file=/dev/null"]
    counts = []
    for words, text in work:
        ended = subprocess.run([*counting, *words], input=text.encode(), stdout=subprocess.DEVNULL,
                               stderr=subprocess.PIPE, check=False)
        told = re.search(rb"Collected : (\d+)", ended.stderr)
        if ended.returncode not in statuses or not told:
            raise SystemExit(f"callgrind does not count {' '.join(map(str, words))}: {ended.stderr.decode()}")
        counts.append(int(told[1]))
    return counts
