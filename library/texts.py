#!/usr/bin/env python3
"""texts.py SEED COUNT: COUNT random texts, a case a line, as `oracle --batch` takes them: HEX, or SCOPE FLAG<tab>HEX.

The mix: texts made by the grammar, such texts damaged (bytes deleted, doubled, swapped, changed, put in; cut off; a span lost; lines
swapped; a comment or a string opened), pieces of the language in no order, bytes in no order, deep nesting, and a few long texts. One in
eight has a starting state. The same seed gives the same texts.
"""
import random
import sys

MNEMONICS = (
    "adc and asl bcc bcs beq bit bmi bne bpl brk bvc bvs clc cld cli clv cmp cpx cpy dec dex dey eor inc inx iny jmp jsr lda ldx ldy lsr "
    "nop ora pha php pla plp rol ror rti rts sbc sec sed sei sta stx sty tax tay tsx txa txs tya"
).split()

NAMES = (
    "a b c f x y foo bar _ _z a1 B2 lda nop true falsey from as asx else include ascii petscii super rowdata incx scope X9_"
).split()

OPERATORS = "+ - * / % << >> ^ == != > >= < <= && || & =".split()

PIECES = [
    "lda", "nop", "asl", "#", "1", "$a", "%1", "(", ")", "{", "}", ",x", ",y", "a", "b.c", "-", "+", "*", "=", ":", ".byte", ".if", "else",
    ".loop", ".import", "from", '"a"', '"', '"{a}"', ".define", ".macro", ".text", ".trace", ".test", ".segment", ".const", " ", " ", " ",
    "\n", "\r\n", "\r", "/*", "*/", "/**/", "//", "// c\n", "true", "as", "f(", "!", "<", ">>", "==", ",", "ascii", ".assert", ".file",
    ".align",
]

# The bytes that damage puts in.
BYTES = b"{}()\"'a1f-+/*\n\r.# ,=<>!:$%_x&|^;@\t"

# The oracle reads no deeper.
DEEPEST = 12


class Grammar:
    """One text of one to three statements, with trivia wherever it may stand, and now and then where it may not."""

    def __init__(self, rng):
        self.rng = rng
        self.out = []
        self.blank = rng.choice((1, 2, 3, 8))

    def text(self):
        for i in range(self.rng.randrange(1, 4)):
            if i > 0:
                self.between()
            self.statement(3)
        if self.once_in(2):
            self.mws()
        return "".join(self.out)

    def once_in(self, n):
        return self.rng.randrange(n) == 0

    def put(self, *of):
        self.out.append(self.rng.choice(of))

    def word(self, *of):
        """A word in random letter case."""
        word = self.rng.choice(of)
        style = self.rng.randrange(6)
        if style == 0:
            word = word.upper()
        elif style == 1:
            word = "".join(self.rng.choice((c, c.upper())) for c in word)
        self.out.append(word)

    def between(self):
        self.put("\n", "\n", "\n", "\r\n", " ", "  \n", " // c\n", "/**/\n", "\n\n", "\t", "", "\r", " /* a /* b */ c */ ", "//\n", "\n ")

    def ws(self):
        if self.once_in(self.blank):
            self.put(" ", " ", " ", "  ", "\t", "/**/", "/* c */", " /*x*/ ", "/*/**/*/", " \t ", "/* \n */", "/*/ */")
        if self.once_in(150):
            self.put("\n", "\r\n", "// c\n", "\r", "/*", "// c", "//", "/*/", "\v")

    def mws(self):
        if self.once_in(self.blank * 2):
            self.put("\n", "\r\n", " \n ", "// c\n", "/* a */\n", "\n\n", "//c\r\n", "\n/*\n*/")
        else:
            self.ws()

    def gap(self):
        """Trivia that keeps two words apart, most of the time."""
        if self.once_in(12):
            self.ws()
        else:
            self.put(" ", " ", " ", "  ", "\t", "/**/", " /* */")

    def name(self):
        self.put(*NAMES)

    def path(self):
        for i in range(self.rng.choice((1, 1, 1, 1, 2, 3))):
            if i > 0:
                self.put(".")
            if self.once_in(5):
                self.put("-", "+")
            else:
                self.name()
        if self.once_in(40):
            self.put(".")

    def number(self):
        kind = self.rng.randrange(8)
        if kind == 2:
            self.word("true", "false")
        elif kind > 2:
            self.put("0", "1", "2", "10", "255", "007", "99999999999999999999")
        else:
            self.put("$%"[kind])
            if self.once_in(8):
                self.ws()
            self.put(*(("0", "ff", "D020", "1a", "00", "g", "deadbeef", "") if kind == 0 else ("0", "1", "1010", "12", "2", "")))

    def string(self, paths):
        self.put('"')
        for _ in range(self.rng.randrange(4)):
            if paths and self.once_in(2):
                self.put("{")
                if self.once_in(4):
                    self.ws()
                self.path()
                if self.once_in(20):
                    self.ws()
                if not self.once_in(25):
                    self.put("}")
            else:
                self.put("a", "foo", " ", "x y", "/", "\\", "../a", "'", "//", "/*", "1", "(", ")", ".asm", "\t", ";")
        if not self.once_in(20):
            self.put('"')

    def args(self, depth):
        for i in range(self.rng.choice((0, 1, 1, 2, 3))):
            if i > 0:
                self.ws()
                self.put(",")
            self.ws()
            self.expression(depth)
        if self.once_in(20):
            self.put(",")
        self.ws()

    def close(self, mark, once):
        """The closing mark, but for once in so many times."""
        if not self.once_in(once):
            self.put(mark)

    def factor(self, depth):
        for mark in "!-":
            if self.once_in(6):
                self.put(mark)
                self.ws()
        kind = self.rng.randrange(10 if depth else 6)
        if kind < 3:
            self.number()
        elif kind == 3:
            if self.once_in(3):
                self.put("<", ">")
                self.ws()
            self.path()
        elif kind == 4:
            self.put("*")
        elif kind == 5:
            self.string(True)
        elif kind < 8:
            self.put("(")
            self.ws()
            self.expression(depth - 1)
            self.ws()
            self.close(")", 20)
        else:
            if self.once_in(6):
                self.mws()
            self.name()
            self.ws()
            self.put("(")
            self.args(depth - 1)
            self.close(")", 20)

    def expression(self, depth):
        self.factor(depth)
        for _ in range(self.rng.choice((0, 0, 0, 1, 1, 2))):
            self.ws()
            self.put(*OPERATORS)
            self.ws()
            self.factor(depth)

    def suffix(self):
        if self.once_in(2):
            self.ws()
            self.put(",")
            self.ws()
            self.word("x", "y", "x", "y", "xy", "z")

    def operand(self):
        kind = self.rng.randrange(7)
        if kind < 2:
            self.put("#")
            self.ws()
            self.expression(2)
        elif kind < 4:
            self.put("(")
            self.ws()
            self.expression(1)
            if kind == 3:
                self.suffix()
            self.ws()
            self.put(")")
            if kind == 2:
                self.suffix()
        else:
            self.expression(2)
            self.suffix()

    def many(self, count, item):
        for i in range(count):
            if i > 0:
                self.between()
            else:
                self.mws()
            item()

    def block(self, depth):
        self.mws()
        self.put("{")
        if depth > 0:
            self.many(self.rng.randrange(3), lambda: self.statement(depth - 1))
        self.mws()
        self.close("}", 12)

    def pair(self, depth):
        self.put("a", "name", "load-start", "-", "k2", "x-1", "bank", "9")
        self.mws()
        self.put("=")
        self.mws()
        if depth > 0 and self.once_in(4):
            self.config(depth - 1)
        else:
            self.expression(1)

    def config(self, depth):
        self.mws()
        self.put("{")
        self.many(self.rng.randrange(4), lambda: self.pair(depth))
        self.mws()
        self.close("}", 12)

    def import_as(self):
        if self.once_in(3):
            self.gap()
            self.word("as")
            self.gap()
            self.path()

    def statement(self, depth):
        self.rng.choice(FLAT if depth == 0 else FLAT + NESTED)(self, depth)

    def instruction(self, depth):
        self.word(*MNEMONICS)
        if not self.once_in(4):
            self.gap()
            self.operand()

    def data(self, depth):
        self.word(".byte", ".word", ".dword")
        self.gap()
        self.args(2)

    def variable(self, depth):
        self.word(".var", ".const")
        self.gap()
        self.name()
        self.ws()
        self.put("=")
        self.ws()
        self.expression(2)

    def counter(self, depth):
        self.put("*")
        self.ws()
        self.put("=")
        self.ws()
        self.expression(2)

    def invocation(self, depth):
        self.name()
        self.ws()
        self.put("(")
        self.args(2)
        self.put(")")

    def align(self, depth):
        self.word(".align")
        self.gap()
        self.expression(2)

    def text_statement(self, depth):
        self.word(".text")
        self.gap()
        if self.once_in(2):
            self.word("ascii", "petscii", "petscreen", "utf")
            self.gap()
        if self.once_in(3):
            self.expression(1)
        else:
            self.string(True)

    def file(self, depth):
        self.word(".file")
        self.gap()
        self.string(True)

    def assertion(self, depth):
        self.word(".assert")
        self.gap()
        self.expression(2)
        if self.once_in(2):
            self.gap()
            self.string(True)

    def trace(self, depth):
        self.word(".trace")
        if self.once_in(2):
            self.ws()
            self.put("(")
            self.args(2)
            self.put(")")

    def nonsense(self, depth):
        self.put("?", "]", "a", "1", "@x", ".foo 1", "}", ")", ".", "lda)", "=")

    def label(self, depth):
        self.name()
        if self.once_in(12):
            self.ws()
        self.put(":")
        if self.once_in(2):
            self.block(depth)

    def define(self, depth):
        self.word(".define")
        self.gap()
        self.name()
        self.config(2)

    def macro(self, depth):
        self.word(".macro")
        self.gap()
        self.name()
        self.ws()
        self.put("(")
        for i in range(self.rng.randrange(3)):
            if i > 0:
                self.ws()
                self.put(",")
            self.ws()
            self.name()
        self.ws()
        self.put(")")
        self.block(depth)

    def segment(self, depth):
        self.word(".segment")
        self.gap()
        self.expression(1)
        if self.once_in(2):
            self.block(depth)

    def loop(self, depth):
        self.word(".loop")
        self.gap()
        self.expression(1)
        self.block(depth)

    def condition(self, depth):
        self.word(".if")
        self.gap()
        self.expression(1)
        self.block(depth)
        if self.once_in(2):
            self.mws()
            self.word("else")
            self.block(depth)

    def imports(self, depth):
        self.word(".import")
        self.gap()
        if self.once_in(3):
            self.put("*")
            self.import_as()
        else:
            for i in range(self.rng.randrange(1, 4)):
                if i > 0:
                    self.ws()
                    self.put(",")
                self.ws()
                self.path()
                self.import_as()
        self.mws()
        self.gap()
        self.word("from")
        self.ws()
        self.string(False)
        if self.once_in(2):
            self.block(depth)

    def test(self, depth):
        self.word(".test")
        self.gap()
        self.expression(0)
        self.block(depth)


G = Grammar
FLAT = [G.instruction] * 4 + [
    G.data, G.variable, G.counter, G.invocation, G.align, G.text_statement, G.file, G.assertion, G.trace, G.nonsense,
]
NESTED = [G.block, G.block, G.label, G.label, G.define, G.macro, G.segment, G.loop, G.condition, G.imports, G.imports, G.test]


def swap_lines(rng, text):
    lines = text.split(b"\n")
    i, j = rng.randrange(len(lines)), rng.randrange(len(lines))
    lines[i], lines[j] = lines[j], lines[i]
    return b"\n".join(lines)


def damage(rng, text):
    """One of ten kinds of damage."""
    n, i, kind = len(text), rng.randrange(len(text) + 1), rng.randrange(10)
    one = bytes((rng.choice(BYTES),))
    if kind == 0:
        return text[:i] + text[i + 1 :]
    if kind == 1:
        return text[:i] + text[i : i + 1] + text[i:]
    if kind == 2:
        return text[:i] + text[i + 1 : i + 2] + text[i : i + 1] + text[i + 2 :]
    if kind == 3:
        return text[:i] + one + text[i + 1 :]
    if kind == 4:
        return text[:i] + one + text[i:]
    if kind == 5:
        return text[:i]
    if kind == 6:
        return text[:i] + text[min(n, i + rng.randrange(1, 7)) :]
    if kind == 7:
        return swap_lines(rng, text)
    return text[:i] + (b"/*" if kind == 8 else b'"') + text[i:]


def damaged(rng, text):
    for _ in range(rng.randrange(1, 4)):
        text = damage(rng, text)
    return text


def nested(rng):
    """Marks that open, to the depth that the oracle reads, closed or not."""
    depth = rng.randrange(1, DEEPEST + 1)
    kind = rng.randrange(5)
    if kind == 0:
        opening, closing, inner, head = "(", ")", "1", rng.choice(("lda ", ".byte ", ".var a = ", "lda #", "f"))
    elif kind == 1:
        opening, closing, inner, head = "f(", ")", rng.choice(("", "1", "1,2")), rng.choice(("lda ", ".byte ", "* = ", ""))
    elif kind == 2:
        opening, closing, inner, head = rng.choice(("{", "a:{", ".loop 1 {\n", ".if a { ")), "}", rng.choice(("", "nop", "/*")), ""
    elif kind == 3:
        opening, closing, inner, head = "{a=", "}", rng.choice(("1", "", "(1)")), ".define a "
    else:
        opening, closing, inner, head = "", "", "", ""
        for _ in range(depth):
            opening_one, closing_one = rng.choice((("(", ")"), ("f(1,", ")"), ("{", "}"), ("-(", ")"), ("lda (", ")")))
            opening, closing = opening + opening_one, closing_one + closing
        return opening + rng.choice(("1", "", "a")) + closing[: rng.randrange(len(closing) + 1)]
    closed = depth if rng.randrange(3) else rng.randrange(depth + 1)
    return head + opening * depth + inner + closing * closed


def long(rng):
    """Many lines, of texts that close what they open, and a last one that may not."""
    lines = []
    for _ in range(rng.randrange(20, 400)):
        line = Grammar(rng).text().encode()
        if line.count(b"(") == line.count(b")") and line.count(b"{") == line.count(b"}"):
            lines.append(line)
    return b"\n".join(lines + [damaged(rng, Grammar(rng).text().encode())])


def text(rng):
    if rng.randrange(800) == 0:
        return long(rng)
    kind = rng.randrange(20)
    if kind == 0:
        return bytes(rng.choice(BYTES) for _ in range(rng.randrange(24)))
    if kind == 1:
        return "".join(rng.choice(PIECES) for _ in range(rng.randrange(10))).encode()
    if kind == 2:
        return nested(rng).encode()
    made = Grammar(rng).text().encode()
    return made if kind < 8 else damaged(rng, made)


def state(rng):
    if rng.randrange(8):
        return ""
    return "%d %d\t" % (rng.choice((0, 1, 7, 41, 999, rng.randrange(5000))), rng.randrange(2))


def cases(seed, count):
    rng = random.Random(seed)
    return [state(rng) + text(rng).hex() for _ in range(count)]


if __name__ == "__main__":
    print("\n".join(cases(int(sys.argv[1]), int(sys.argv[2]))))
