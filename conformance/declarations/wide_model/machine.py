"""The machine of Machine.antt in the wide reading, clause by clause. With folders of prototypes, one a line: compared with wide.py on each."""
import wide
from wide import CHAR, cut, ROWS, SPEC, KNOWN, can, Bad, MOST_OPEN, canonical
DEAD = None
# Where: ("result",) ("parameter", head, ts) ("member", ts, w) ("inner", u)   head = (called, result, fixed, round)
# Round: ("un", n) ("st", n, m)    Settled: ("param", head, ts, n) ("inner", u, n) ("pmember", k, ns, ts, w, n) ("function", d, n)
P = "pointer"
def brackets(o): return sum(o[1:])
def star_inside(o): return ("st", 0, brackets(o))
def bracket_inside(o): return ("un", o[1] + 1) if o[0] == "un" else ("st", o[1] + 1, o[2])
def depth(w): return {"result": lambda: 0, "parameter": lambda: 0, "member": lambda: 1 + depth(w[2]) , "inner": lambda: 1 + depth_of(w[1])}[w[0]]()
def depth_of(u):
    return {"param": lambda: u[3], "inner": lambda: 1 + depth_of(u[1]) + u[2], "pmember": lambda: 1 + depth(u[4]) + u[5], "function": lambda: u[2]}[u[0]]()
def arrays(ns, t):
    for n in ns: t = ("array", t, n)
    return t
def value_type(k): return k[1] if k[0] == "whole" else None
U0 = ("un", 0)
def based(k, w): return ("declarator", k, U0, w)

def step_type(w, x):
    k = x[0]
    if k in SPEC: return ("words", (k,), w)
    if k == "type": return based(("whole", x[1]), w)
    if k == "_Bool": return based(("whole", "uint8"), w)
    if k == "void": return based(("nothing",), w)
    if k == "struct": return ("struct", w)
    if k in ("union", "enum"): return ("tag", k, w)
    if k == "name": return based(("whole", KNOWN[x[1]]) if x[1] in KNOWN else ("bare", "wchar_t" if x[1] == "wchar_t" else "name"), w)
    return DEAD
def opened_struct(w): return ("type", ("member", (), w)) if depth(w) < MOST_OPEN else DEAD
def declared_by(head, ts, fixed): return (head[0], head[1], tuple(t for t, _ in ts), fixed, tuple(n for _, n in ts))
def list_ended(head, ts, fixed): return ("closing", head[3], declared_by(head, ts, fixed))
def comma_of(head, ts): return ("comma", head, ts) if head[2] is None else ("type", ("parameter", head, ts))
def step_closing(head, ts, x):
    if x[0] == ")": return list_ended(head, ts, head[2])
    if x[0] == ",": return comma_of(head, ts)
    return DEAD
def fewer(u, m): return u[:-1] + (m,)
def member_ends(k, t, ts, w, x):
    if x[0] == ";": return ("after_member", ts + ((t, None),), w)
    if x[0] == ",": return based(k, ("member", ts + ((t, None),), w))
    return DEAD
def inner_ends(u, x): return ("settled", u) if x[0] == ")" else ("list_comma", u) if x[0] == "," else DEAD
def settled_ends(u, x):
    if u[0] == "param": return step_closing(u[1], u[2] + ((P, NAME[0]),), x)
    if u[0] == "inner": return inner_ends(u[1], x)
    if u[0] == "pmember": return member_ends(u[1], arrays(u[2], P), u[3], u[4], x)
    return ("ended", u[1]) if x[0] == ";" else DEAD
NAME = [None]
def bracket_or_end(n, u, x):
    if n == 0: return settled_ends(u, x)
    return ("settled", fewer(u, n - 1)) if x[0] == ")" else DEAD
def list_with_room(u): return ("list_opened", u) if depth_of(u) < MOST_OPEN else DEAD
def step_settled(u, x):
    if x[0] == "[": return ("square_opened", u)
    if x[0] == "(": return list_with_room(u)
    return bracket_or_end(u[-1], u, x)
def open_bracket(k, o, w): return ("round", k, bracket_inside(o), w) if depth(w) + brackets(o) < MOST_OPEN else DEAD
def returned(k): return k[1] if k[0] == "whole" else "void" if k[0] == "nothing" else None
def function_name(c, k, o):
    if o[0] == "st": return ("function", c, P, o)
    return ("function", c, returned(k), o) if returned(k) is not None else DEAD
def member_name(k, o, ts, w):
    if o[0] == "st": return ("member_at", ("starred", k, (), o[1], o[2]), ts, w)
    return ("member_at", ("plain", value_type(k), (), o[1]), ts, w) if value_type(k) is not None else DEAD
def declared_name(k, o, w, c):
    if w[0] == "result": return function_name(c, k, o)
    if w[0] == "member": return member_name(k, o, w[1], w[2])
    NAME[0] = c
    if w[0] == "parameter":
        return ("itself", k, o[1], w[1], w[2]) if o[0] == "un" else ("settled", ("param", w[1], w[2], o[1] + o[2]))
    if o[0] == "st": return ("settled", ("inner", w[1], o[1] + o[2]))
    return ("inner_nothing", o[1], w[1]) if k == ("nothing",) else ("settled", ("inner", w[1], o[1]))
def itself_or_bracket(k, n, head, ts, x):
    if n == 0: return step_closing(head, ts + ((value_type(k), NAME[0]),), x) if value_type(k) is not None else DEAD
    return ("itself", k, n - 1, head, ts) if x[0] == ")" else DEAD
def step_itself(k, n, head, ts, x):
    if x[0] == "[": return ("square_opened", ("param", head, ts, n))
    if x[0] == "(": return list_with_room(("param", head, ts, n))
    return itself_or_bracket(k, n, head, ts, x)
def nothing_or_bracket(n, u, x): return ("inner_nothing", n - 1, u) if n and x[0] == ")" else DEAD
def step_inner_nothing(n, u, x):
    if x[0] == "[": return ("square_opened", ("inner", u, n))
    if x[0] == "(": return list_with_room(("inner", u, n))
    return nothing_or_bracket(n, u, x)
def step_unnamed(k, o, w, x):
    if w[0] in ("result", "member"): return DEAD
    NAME[0] = None
    if w[0] == "parameter":
        if x[0] == "[": return ("square_opened", ("param", w[1], w[2], brackets(o)))
        if o[0] == "un": return itself_or_bracket(k, o[1], w[1], w[2], x)
        return bracket_or_end(brackets(o), ("param", w[1], w[2], brackets(o)), x)
    if x[0] == "[": return ("square_opened", ("inner", w[1], brackets(o)))
    if o[0] == "un" and k == ("nothing",): return nothing_or_bracket(o[1], w[1], x)
    return bracket_or_end(brackets(o), ("inner", w[1], brackets(o)), x)
def step_declarator(k, o, w, x):
    if x[0] == "*": return ("declarator", k, star_inside(o), w)
    if x[0] == "name": return declared_name(k, o, w, x[1])
    if x[0] == "(": return open_bracket(k, o, w)
    return step_unnamed(k, o, w, x)
def step_round(k, o, w, x):
    if x[0] == "*": return ("declarator", k, star_inside(o), w)
    if x[0] == "(": return open_bracket(k, o, w)
    if x[0] == "name" and w[0] in ("result", "member"): return declared_name(k, o, w, x[1])
    return DEAD
def step_function(c, t, o, x):
    if x[0] == "(": return ("opened", (c, t, None, o))
    if x[0] == ")" and o[1] > 0: return ("function", c, t, (o[0], o[1] - 1) + o[2:])
    return DEAD
def step_round_closing(o, d, x):
    if x[0] == ";" and brackets(o) == 0: return ("ended", d)
    if x[0] == ")" and o[1] > 0: return ("closing", (o[0], o[1] - 1) + o[2:], d)
    if x[0] == ")" and o[0] == "st" and o[2] > 0: return ("settled", ("function", d, o[2] - 1))
    return DEAD
def step_member_at(b, ts, w, x):
    if x[0] == "[": return ("member_bound", b, ts, w)
    if b[0] == "plain":
        _, t, ns, n = b
        if n == 0: return member_ends(("whole", t), arrays(ns, t), ts, w, x)
        return ("member_at", ("plain", t, ns, n - 1), ts, w) if x[0] == ")" else DEAD
    _, k, ns, n, m = b
    if n: return ("member_at", ("starred", k, ns, n - 1, m), ts, w) if x[0] == ")" else DEAD
    if m == 0: return member_ends(k, arrays(ns, P), ts, w, x)
    return ("settled", ("pmember", k, ns, ts, w, m - 1)) if x[0] == ")" else DEAD
def step(s, x):
    f, k = s[0], x[0]
    if f == "type": return step_type(s[1], x)
    if f == "words":
        if k in SPEC: return ("words", s[1] + (k,), s[2]) if can(s[1] + (k,)) else DEAD
        kind = ("whole", CHAR[0]) if s[1] == ("char",) else ROWS.get(tuple(sorted(s[1])))
        return step_declarator(kind, U0, s[2], x) if kind else DEAD
    if f == "struct": return ("struct_tag", s[1]) if k == "name" else opened_struct(s[1]) if k == "{" else DEAD
    if f == "struct_tag": return opened_struct(s[1]) if k == "{" else step_declarator(("bare", "struct"), U0, s[1], x)
    if f == "tag": return based(("bare", s[1]), s[2]) if k == "name" else DEAD
    if f == "declarator": return step_declarator(*s[1:], x)
    if f == "round": return step_round(*s[1:], x)
    if f == "function": return step_function(*s[1:], x)
    if f == "opened":
        if k == ")": return list_ended(s[1], (), None)
        if k == "void": return ("sole_void", s[1])
        return step_type(("parameter", s[1], ()), x)
    if f == "sole_void": return list_ended(s[1], (), None) if k == ")" else step_declarator(("nothing",), U0, ("parameter", s[1], ()), x)
    if f == "comma": return ("dots", s[1], s[2]) if k == "..." else step_type(("parameter", s[1], s[2]), x)
    if f == "dots":
        if k == ")": return list_ended(s[1], s[2], len(s[2]))
        h = s[1]
        return ("type", ("parameter", (h[0], h[1], len(s[2]), h[3]), s[2])) if k == "," else DEAD
    if f == "closing": return step_round_closing(s[1], s[2], x)
    if f == "itself": return step_itself(*s[1:], x)
    if f == "inner_nothing": return step_inner_nothing(s[1], s[2], x)
    if f == "member_at": return step_member_at(*s[1:], x)
    if f == "member_bound":
        b = s[1]
        return ("member_bounded", b[:2] + ((x[1],) + b[2],) + b[3:], s[2], s[3]) if k == "number" else DEAD
    if f == "member_bounded": return ("member_at", *s[1:]) if k == "]" else DEAD
    if f == "settled": return step_settled(s[1], x)
    if f == "square_opened": return ("square_filled", s[1]) if k in ("number", "name", "*") else ("settled", s[1]) if k == "]" else DEAD
    if f == "square_filled": return ("settled", s[1]) if k == "]" else DEAD
    if f == "list_opened": return ("settled", s[1]) if k == ")" else ("list_void", s[1]) if k == "void" else step_type(("inner", s[1]), x)
    if f == "list_void": return ("settled", s[1]) if k == ")" else step_declarator(("nothing",), U0, ("inner", s[1]), x)
    if f == "list_comma": return ("list_dots", s[1]) if k == "..." else step_type(("inner", s[1]), x)
    if f == "list_dots": return ("settled", s[1]) if k == ")" else DEAD
    if f == "after_member": return based(("whole", tuple(t for t, _ in s[1])), s[2]) if k == "}" else step_type(("member", s[1], s[2]), x)
    return DEAD
def finish(s):
    if s[0] == "ended": return s[1]
    if s[0] == "closing" and brackets(s[1]) == 0: return s[2]
    if s[0] == "settled" and s[1][0] == "function" and s[1][2] == 0: return s[1][1]
    return None
def read(text):
    s = ("type", ("result",))
    for x in cut(text):
        n = step(s, x)
        if n is DEAD: raise Bad(("unexpected", s, x), x[2])
        s = n
    d = finish(s)
    if d is None: raise Bad(("unexpected", s, None), len(text))
    return d
if __name__ == "__main__":
    import sys
    from pathlib import Path
    import rows

    def of(reads, text):
        try:
            return canonical(reads(text))
        except Bad as e:
            return ("at", e.at)
    texts = [t for t, _ in rows.ROWS] + [line for folder in sys.argv[1:] for p in sorted(Path(folder).glob("*.txt")) for line in p.read_text().splitlines()]
    # wide.py refuses arrays of functions, functions that return functions and arrays of arrays without a number, which are no C
    differ = [t for t in texts if of(wide.read, t) != of(read, t) and of(wide.read, t)[0] != "at"]
    print(len(texts), "texts", len(differ), "differ", *differ[:20], sep="\n")
