"""Random C declarations, drawn from the table of the grammar, and texts that are changed a little. The same seed gives
the same texts."""

from declaration import BY_HEAD, RULES, START, WORDS, Refused, tokens_of

NAMES = ["a", "b", "n", "x1", "_", "value", "Struct", "int8", "m0", "longer_than_most_names_of_parameters_are"]
# Words of C, and of gcc, that the grammar takes for names.
KEYWORDS = ["auto", "enum", "inline", "register", "restrict", "return", "sizeof", "static", "union", "volatile",
            "_Bool", "_Alignas", "asm", "typeof", "__attribute__"]
MARKS = ["(", ")", "{", "}", "[", "]", ",", ";", "*", "..."]
COUNTS = [1, 1, 2, 2, 3, 3, 4, 5, 7, 8, 16]
RARE_COUNTS = [0, 64, 4096, 4097, 65536, 4294967295, 4294967296, 10 ** 29]
BLANKS = [" ", " ", " ", "  ", "\n", "\t", "\r\n"]
# What stands in no declaration, and what a C compiler takes for more than it is.
ODD = [b"\0", b"\f", b"\v", b"$", b"#", b"/**/", b"//", b"\\\n", b".", b"..", b"0", b"0x", b"\xc3\xa9", b"\xff",
       b"\"", b"'", b"=", b":", b"-", b"+", b"&", b"<:", b"%", b"??("]
# How often a body is taken beside the others of its head; 1 where nothing stands here. Heads are without their depth.
WEIGHTS = {
    ("function", "( parameters )"): 6, ("function", "( parameters , ... )"): 2,
    ("result", "type"): 5, ("result", "const void"): 0.3,
    ("parameters", "parameters , parameter"): 2, ("parameter", "type name"): 2,
    ("type", "whole"): 3, ("type", "const whole"): 0.6, ("type", "const pointer"): 0.6,
    ("pointer", "pointer *"): 0.3,
    ("whole", "struct { members }"): 0.5, ("members", "members member"): 1.5, ("member", "type name counts ;"): 0.4,
    ("counts", "counts [ number ]"): 0.4,
    ("scalar", "sized"): 3, ("scalar", "sign sized"): 5, ("scalar", "sign char"): 2,
}
# The same for a declaration of structs inside structs, and of many parameters.
DEEP = {("whole", "struct { members }"): 5, ("members", "members member"): 0.3}
DEEPEST = {("whole", "struct { members }"): 300, ("type", "whole"): 100, ("members", "members member"): 0.1,
           ("member", "type name counts ;"): 0.01}
MANY = {("parameters", "parameters , parameter"): 30, ("whole", "struct { members }"): 0.1}
# The same for many parameters that are structs of an array of a scalar, of counts such as these.
LARGE = {("function", "( parameters )"): 30, ("parameters", "parameters , parameter"): 25, ("type0", "whole"): 12,
         ("whole0", "struct { members }"): 12, ("type1", "whole"): 30, ("whole1", "scalar"): 30,
         ("members", "members member"): 0.02, ("member", "type name counts ;"): 12,
         ("counts", "counts [ number ]"): 0.02}
LARGE_COUNTS = [128, 200, 255, 256, 256]


def without_depth(text):
    return " ".join(word.rstrip("0123456789") for word in text.split())


def weight_of(rule, weights):
    head, body, _ = RULES[rule]
    body = without_depth(" ".join(body)).removeprefix("result name ")
    key = head.rstrip("0123456789"), body
    return weights.get((head, body), weights.get(key, WEIGHTS.get(key, 1)))


class Drawn:
    """One declaration: its words, as they are drawn."""

    def __init__(self, random, function):
        self.random, self.function, self.words, self.named = random, function, [], 0
        roll = random.random()
        self.weights = (DEEP if roll < 0.03 else DEEPEST if roll < 0.05 else MANY if roll < 0.06
                        else LARGE if roll < 0.09 else {})
        self.counts, self.rare = (LARGE_COUNTS, 0.005) if self.weights is LARGE else (COUNTS, 0.03)
        self.derive(START)

    def derive(self, head):
        rules = BY_HEAD[head]
        rule = self.random.choices(rules, [weight_of(each, self.weights) for each in rules])[0]
        for word in RULES[rule][1]:
            if word in BY_HEAD:
                self.derive(word)
            elif word == "name":
                self.words.append(self.function if head == "function" else self.name())
            elif word == "number":
                counts = RARE_COUNTS if self.random.random() < self.rare else self.counts
                self.words.append(str(self.random.choice(counts)))
            else:
                self.words.append(word)

    def name(self):
        """Nearly always one that no other has."""
        roll = self.random.random()
        if roll < 0.01:
            return self.random.choice(KEYWORDS)
        self.named += roll < 0.97
        return self.random.choice(NAMES) + (f"{self.named}_" if roll < 0.97 else "")


def is_word(text):
    return text[0] == "_" or text[0].isalnum()


def joined(random, words):
    """The words with blanks between: as few as can be, as C is written, or any."""
    few, text = random.choice([0.9, 0.3, 0.0]), ""
    for word in words:
        if text and (is_word(text[-1]) and is_word(word) or random.random() >= few):
            text += " " if few else random.choice(BLANKS)
        text += word
    return text


def declarations(random, start, count):
    """So many texts, whose functions differ in their names: the first has this number."""
    return [joined(random, Drawn(random, f"f{number}").words).encode() for number in range(start, start + count)]


# ---- texts that are changed


def left_out(random, words, at):
    del words[at]


def doubled(random, words, at):
    words.insert(at, words[at])


def exchanged(random, words, at):
    words[at:at + 2] = words[at:at + 2][::-1]


def any_word(random):
    return random.choice([*sorted(WORDS), *MARKS, *MARKS, *NAMES[:3], random.choice(KEYWORDS), "0", "2", "4294967296"])


def replaced(random, words, at):
    words[at] = any_word(random)


def put_in(random, words, at):
    words.insert(at, any_word(random))


def named_alike(random, words, at):
    """A name stands where another stood."""
    names = [i for i, word in enumerate(words) if is_word(word) and word not in WORDS and not word[0].isdigit()]
    words[random.choice(names)] = words[random.choice(names)]


CHANGES = [left_out, doubled, exchanged, replaced, replaced, put_in, named_alike]


def changed(random, text):
    """A text that differs a little from this declaration: in a word or two, or in some bytes."""
    if random.random() < 0.75:
        words = [token.text for token in tokens_of(text)]
        for _ in range(random.choice([1, 1, 2])):
            if words:
                random.choice(CHANGES)(random, words, random.randrange(len(words)))
        return joined(random, words).encode()
    at = random.randrange(len(text))
    return random.choice([text[:at], text[:at] + text[at + 1:], text[:at] + random.choice(ODD) + text[at:],
                          text[:at] + random.choice(ODD) + text[at:], text + b" " + text[at:]])


def mutated(random, texts, count):
    """So many changed texts of those that have tokens, none of them twice."""
    found = {}
    while len(found) < count:
        try:
            text = changed(random, random.choice(texts))
        except (Refused, IndexError):
            continue
        if text not in texts and len(text) < 4096:
            found.setdefault(text)
    return list(found)
