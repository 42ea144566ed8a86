"""A model of the wide reading, as a machine of another shape than that of Machine.antt: machine.py is that one, clause by clause."""
import re, sys
from pathlib import Path

BLANKS = set("""const volatile restrict __restrict __restrict__ extern static inline __inline __inline__ register _Noreturn
    __extension__ __const __const__ __volatile __volatile__""".split())
FIXED = {"float": "float", "double": "double", "int8_t": "sint8", "int16_t": "sint16", "int32_t": "sint32", "int64_t": "sint64",
    "uint8_t": "uint8", "uint16_t": "uint16", "uint32_t": "uint32", "uint64_t": "uint64", "size_t": "uint64", "uintptr_t": "uint64", "intptr_t": "sint64"}
KNOWN = {"bool": "uint8", "ssize_t": "sint64", "ptrdiff_t": "sint64", "intmax_t": "sint64", "uintmax_t": "uint64"}
for n in (8, 16, 32, 64):
    KNOWN[f"int_least{n}_t"] = f"sint{n}"; KNOWN[f"uint_least{n}_t"] = f"uint{n}"
SPELLINGS = {"complex": "_Complex", "__complex": "_Complex", "__complex__": "_Complex", "__signed": "signed", "__signed__": "signed",
    "__int128__": "__int128"}
SPEC = "signed unsigned short long int char __int128 float double _Complex".split()
KEYWORDS = set("""auto break case continue default do else for goto if return sizeof switch typedef while _Alignas _Alignof _Atomic
    _Generic _Imaginary _Static_assert _Thread_local typeof __typeof __typeof__ typeof_unqual __alignof__ __auto_type _BitInt __int8
    __int16 __int32 __int64 __ptr32 _int8 _int16 _int32 _int64 _ptr32 _ExtInt _Fract _Accum _Sat""".split())
ATTR = set("__declspec _Alignas".split())
WITH_BRACKET = {"__attribute__": True, "__attribute": True, "__asm__": False, "__asm": False, "asm": False}
SILENT = set("""nothrow leaf pure const nonnull malloc format format_arg warn_unused_result deprecated noreturn visibility alloc_size
    alloc_align access returns_nonnull returns_twice sentinel unused weak cold hot always_inline noinline warning error""".split())
SILENT |= {f"__{word}__" for word in SILENT}
# what plain `char` is: by AAPCS64 and RISC-V "uint8"
CHAR = ["sint8"]
OTHER = ["void", "struct", "union", "enum", "_Bool"]
MOST_OPEN = 16

class Bad(Exception):
    def __init__(self, why, at): self.why, self.at = why, at

SPLICE = r"\\[ \t\r]*\n"
CUT = re.compile(rf"(?P<blank>[ \t\n\r]+|/\*.*?\*(?:{SPLICE})*/|//(?:{SPLICE}|[^\n])*)|" + r"(?P<word>[A-Za-z_]\w*)|(?P<number>[0-9]+)|(?P<mark>\.\.\.|[](){}[,;*])", re.S | re.A)
def bracket(text, at):
    """Where the bracket that opens there ends; None where it does not."""
    depth, quoted = 0, ""
    while at < len(text):
        c = text[at]
        if c in ("\n" if quoted else "/'\\R"): return None
        if quoted == '"': quoted = "" if c == '"' else "\\" if c == "\\" else '"'
        elif quoted == "\\": quoted = '"'
        elif c == '"': quoted = '"'
        elif c == "(": depth += 1
        elif c == ")":
            depth -= 1
            if depth == 0: return at + 1
        at += 1
    return None

def silent(text):
    """Whether each word inside two brackets is a silent attribute, and none stands inside one alone."""
    depth, at = 0, 0
    while at < len(text):
        c = text[at]
        m = re.compile(r"[A-Za-z_]\w*", re.A).match(text, at)
        if m and depth <= 2:
            if depth != 2 or m[0] not in SILENT: return False
            at = m.end(); continue
        if c == '"':
            at += 1
            while text[at] != '"': at += 2 if text[at] == "\\" else 1
        depth += (c == "(") - (c == ")"); at += 1
    return True

STRING = re.compile(r'\([ \t\n\r]*"')
def cut(text):
    out, at = [], 0
    while at < len(text):
        m = CUT.match(text, at)
        if not m: raise Bad("bad token", at)
        s = m[0]
        if m.lastgroup == "word" and s in WITH_BRACKET:
            opens = re.compile(r"[ \t\n\r]*").match(text, m.end()).end()
            if text[opens:opens + 1] != "(": out.append(("attribute", s, at)); at = m.end(); continue
            end = bracket(text, opens)
            if end is None: raise Bad("bad token", at)
            if not (silent if WITH_BRACKET[s] else STRING.match)(text[opens:end]): out.append(("attribute", s, at))
            at = end; continue
        if m.lastgroup == "word":
            s = SPELLINGS.get(s, s)
            if s in BLANKS: pass
            elif s in FIXED and s not in ("float", "double"): out.append(("type", FIXED[s], at))
            elif s in SPEC: out.append((s, s, at))
            elif s in OTHER: out.append((s, s, at))
            elif s in ATTR: out.append(("attribute", s, at))
            elif s in KEYWORDS: out.append(("keyword", s, at))
            else: out.append(("name", s, at))
        elif m.lastgroup == "number":
            if len(s) > 1 and s[0] == "0": raise Bad("bad token", at)
            out.append(("number", int(s), at))
        elif m.lastgroup == "mark": out.append((s, s, at))
        at = m.end()
    return out

# ---- C11 6.7.2: the rows
ROWS = {}
def row(words, kind): ROWS[tuple(sorted(words.split()))] = kind
for sign, c in (("", "s"), ("signed", "s"), ("unsigned", "u")):
    if sign: row(f"{sign} char", ("whole", c + "int8")); row(sign, ("whole", c + "int32"))
    row(f"{sign} __int128", ("whole", c + "int128"))
    row(f"{sign} int", ("whole", c + "int32"))
    for i in ("", "int"):
        row(f"{sign} short {i}", ("whole", c + "int16"))
        row(f"{sign} long {i}", ("whole", c + "int64"))
        row(f"{sign} long long {i}", ("whole", c + "int64"))
row("char", ("bare", "char"))
row("float", ("whole", "float")); row("double", ("whole", "double"))
row("float _Complex", ("whole", ("float", "float"))); row("double _Complex", ("whole", ("double", "double")))
row("long double", ("whole", "longdouble")); row("long double _Complex", ("whole", "complex"))
def below(a, b):
    b = list(b)
    for x in a:
        if x in b: b.remove(x)
        else: return False
    return True
PREFIX = {}
def can(ws):
    ws = tuple(sorted(ws))
    if ws not in PREFIX: PREFIX[ws] = any(below(ws, r) for r in ROWS)
    return PREFIX[ws]


# ---- the machine
# where: ("result",) | ("end", d) | ("parameter", head, ts) | ("member", ts, w) | ("inner", suspended, w)
# a declarator's state: kind of the base, levels (starred flags of the open brackets, the current first; the last is the outermost), w
# pending: (counts, decided, last) ; last in none array function pointer
POINTER = "pointer"
def depth(w):
    if w[0] in ("result", "end"): return 0
    if w[0] == "parameter": return len(w[1]["levels"]) - 1
    if w[0] == "member": return 1 + depth(w[2])
    return 1 + depth(w[2]) + len(w[1]["levels"]) - 1
def unnamed(w): return w[0] in ("parameter", "inner")
def room(w, levels=(0,)): return depth(w) + len(levels) - 1 < MOST_OPEN
FRESH = ((), False, "none")

def run(tokens, end, trace=None):
    state = ("type", ("result",))
    for tok in tokens:
        new = step(state, tok)
        if trace is not None: trace.append(state)
        if new is None: raise Bad(("unexpected", state, tok), tok[2])
        state = new
    d = finish(state)
    if d is None: raise Bad(("unexpected", state, None), end)
    return d
def finish(state):
    if state[0] == "ended": return state[1]
    if state[0] == "behind" and state[4][0] == "end" and ends(state) is not None: return state[4][1]
    return None

def step(state, tok):
    return globals()["step_" + state[0]](*state[1:], tok, tok[0])
def based(kind, w): return ("declarator", kind, (False,), w)

def step_type(w, tok, k):
    if k in SPEC: return ("words", (k,), w)
    if k == "type": return based(("whole", tok[1]), w)
    if k == "_Bool": return based(("whole", "uint8"), w)
    if k == "void": return based(("nothing",), w)
    if k == "struct": return ("struct", w)
    if k in ("union", "enum"): return ("tag", k, w)
    if k == "name":
        if tok[1] in KNOWN: return based(("whole", KNOWN[tok[1]]), w)
        return based(("bare", "wchar_t" if tok[1] == "wchar_t" else "name"), w)
    return None

def step_words(ws, w, tok, k):
    if k in SPEC: return ("words", ws + (k,), w) if can(ws + (k,)) else None
    kind = ROWS.get(tuple(sorted(ws)))
    if ws == ("char",): kind = ("whole", CHAR[0])
    if kind is None: return None
    return step(based(kind, w), tok)
def step_struct(w, tok, k):
    if k == "name": return ("tagged", w)
    if k == "{": return ("type", ("member", (), w)) if room(w) else None
    return None
def step_tagged(w, tok, k):
    if k == "{": return ("type", ("member", (), w)) if room(w) else None
    return step(based(("bare", "struct"), w), tok)
def step_tag(which, w, tok, k):
    if k == "name":
        return based(("bare", which), w)
    return None

def step_declarator(kind, levels, w, tok, k):
    if k == "*": return ("declarator", kind, (True,) + levels[1:], w)
    if k == "name": return named(kind, levels, w, tok[1])
    if k == "(": return ("round", kind, (False,) + levels, w) if room(w, levels) else None
    if unnamed(w): return step(("behind", kind, levels, FRESH, w, None), tok)
    return None
def step_round(kind, levels, w, tok, k):
    if k == "*" or k == "(" or k == "name" and not unnamed(w): return step_declarator(kind, levels, w, tok, k)
    return None
def value(kind, levels):
    return ("whole", POINTER) if any(levels) else kind
def named(kind, levels, w, name):
    if w[0] == "result":
        if value(kind, levels)[0] == "bare": return None
        return ("function", kind, levels, name)
    if w[0] == "member" and kind[0] != "whole" and not any(levels): return None
    return ("behind", kind, levels, FRESH, w, name)
def step_function(kind, levels, name, tok, k):
    if k == "(":
        v = value(kind, levels)
        return ("opened", dict(name=name, result="void" if v == ("nothing",) else v[1], levels=levels, kind=kind))
    if k == ")" and len(levels) > 1 and not levels[0]: return ("function", kind, levels[1:], name)
    return None
def step_opened(head, tok, k):
    if k == ")": return closed(head, (), None)
    if k == "void": return ("sole", ("parameter", head, ()))
    return step_type(("parameter", head, ()), tok, k)
def step_inner(w, tok, k):
    if k == ")": return resumed(w)
    if k == "void": return ("sole", w)
    return step_type(w, tok, k)
def step_sole(w, tok, k):
    if k == ")": return closed(w[1], (), None) if w[0] == "parameter" else resumed(w)
    return step(based(("nothing",), w), tok)
def closed(head, ts, fixed):
    d = (head["name"], head["result"], tuple(t for t, _ in ts), fixed, tuple(n for _, n in ts))
    return ("behind", head["kind"], head["levels"], ((), True, "function"), ("end", d), head["name"])
def resumed(w): return w[1]["state"]

def step_comma(head, ts, tok, k):
    if k == "...": return ("dots", head, ts)
    return step_type(("parameter", head, ts), tok, k)
def step_dots(head, ts, tok, k):
    if k == ")": return closed(head, ts, len(ts))
    if k == ",": return ("type", ("parameter", dict(head, fixed=len(ts)), ts))
    return None
def step_inner_comma(w, tok, k):
    if k == "...": return ("inner_dots", w)
    return step_type(w, tok, k)
def step_inner_dots(w, tok, k):
    return resumed(w) if k == ")" else None

def ends(state):
    """the kind that is declared, where the declarator can end here"""
    _, kind, levels, (ns, decided, last), w, name = state
    if len(levels) > 1: return None
    if levels[0]: inner = ("whole", POINTER)
    elif decided:
        if last == "array" and kind[0] == "nothing": return None
        inner = ("whole", POINTER)
    elif kind[0] == "whole": inner = kind
    elif kind[0] == "bare" and w[0] == "inner": inner = kind
    else: return None
    t = inner[1]
    for n in reversed(ns): t = ("array", t, n)
    return (inner[0], t)

def step_behind(kind, levels, pending, w, name, tok, k):
    ns, decided, last = pending
    member = w[0] == "member" and not decided
    state = ("behind", kind, levels, pending, w, name)
    if k == "[" and last != "function":
        if last in ("none",) and kind[0] == "nothing" and len(levels) == 1 and not levels[0]: return None
        if last in ("pointer", "array") and kind[0] == "nothing" and len(levels) == 1 and not levels[0]: return None
        return ("count", kind, levels, pending, w, name, member or last == "array")
    if k == "(" and last in ("none", "pointer") and not member and not (last == "none" and name is None):
        if not room(w, levels): return None
        return ("inner", ("inner", dict(state=("behind", kind, levels, (ns, True, "function"), w, name), levels=levels), w))
    if k == ")" and len(levels) > 1:
        if levels[0]: return ("behind", kind, levels[1:], (ns, True, "pointer"), w, name)
        if last == "none" and name is None: return None
        return ("behind", kind, levels[1:], pending, w, name)
    if len(levels) > 1: return None
    t = ends(state)
    if t is None: return None
    if w[0] == "end": return ("ended", w[1]) if k == ";" else None
    if w[0] == "member":
        ts = w[1] + ((t[1], name),)
        if k == ",": return ("declarator", kind, (False,), ("member", ts, w[2]))
        if k == ";": return ("after_member", ("member", ts, w[2]))
        return None
    if w[0] == "inner":
        if k == ",": return ("inner_comma", w)
        if k == ")": return resumed(w)
        return None
    if w[0] == "parameter":
        ts = w[2] + ((t[1], name),)
        if k == ",":
            return ("type", ("parameter", w[1], ts)) if "fixed" in w[1] else ("comma", w[1], ts)
        if k == ")": return closed(w[1], ts, w[1].get("fixed"))
        return None
    return None
def step_count(kind, levels, pending, w, name, needs, tok, k):
    if k == "number": return ("counted", kind, levels, pending, w, name, tok[1])
    if k in ("name", "*") and not needs: return ("counted", kind, levels, pending, w, name, None)
    if k == "]" and not needs: return counted(kind, levels, pending, w, name, None)
    return None
def counted(kind, levels, pending, w, name, n):
    ns, decided, last = pending
    if w[0] == "member" and not decided: return ("behind", kind, levels, (ns + (n,), False, "array"), w, name)
    return ("behind", kind, levels, (ns, True, "array"), w, name)
def step_counted(kind, levels, pending, w, name, n, tok, k):
    return counted(kind, levels, pending, w, name, n) if k == "]" else None
def step_after_member(w, tok, k):
    if k == "}": return based(("whole", tuple(t for t, _ in w[1])), w[2])
    return step_type(w, tok, k)
def step_ended(d, tok, k): return None

# ---- text of a type, canonical
SPELLED = {"uint8": "uint8_t", "sint8": "int8_t", "uint16": "uint16_t", "sint16": "int16_t", "uint32": "uint32_t",
    "sint32": "int32_t", "uint64": "uint64_t", "sint64": "int64_t", "uint128": "unsigned __int128",
    "sint128": "__int128", "float": "float", "double": "double", "pointer": "void *", "void": "void", "longdouble": "long double", "complex": "long double _Complex"}
def spelled(t, name=""):
    if isinstance(t, tuple) and t and t[0] == "array":
        counts = ""
        while isinstance(t, tuple) and t[0] == "array": counts += f"[{t[2]}]"; t = t[1]
        return spelled(t, name + counts)
    if isinstance(t, tuple): base = "struct { " + " ".join(spelled(m, f"m{i}") + ";" for i, m in enumerate(t)) + " }"
    else: base = SPELLED[t]
    return f"{base} {name}" if name else base
def canonical(d):
    name, result, ts, fixed, names = d
    ps = ", ".join(spelled(t) for t in ts) if ts else "void"
    if fixed is not None: ps = ", ".join([spelled(t) for t in ts[:fixed]] + ["..."] + [spelled(t) for t in ts[fixed:]])
    return f"{spelled(result, name)}({ps});"
def read(text):
    return run(cut(text), len(text))
