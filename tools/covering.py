"""Puts markers into sources: a call `mark(NUMBER)` at the start of each block of code, so that a run says which blocks it reached.

A block is the body of a function, of a branch or of a loop, or an arm of a match. Code that stands in no block of its own, such as a
closure of one expression or the right side of `&&`, counts with the block around it.
"""

import re

from sources import COMMENT, WORDS, Crate, blanks

TOKEN = re.compile(r"\w+|=>|->|::|==|!=|<=|>=|&&|\|\||\S")
NAME = re.compile(r"\w+|>")
# Words before a brace that begins a block and not a literal of a struct.
BEFORE_BLOCK = {"else", "loop", "unsafe", "return", "move", "in", "break"}
CLOSING = {"(": ")", "[": "]", "{": "}"}


def as_words(text):
    """The text with blanks for its comments, and a word for each string and character."""
    return re.sub(f"({WORDS})|{COMMENT}", lambda it: re.sub(r"[^\n]", "_", it[1]) if it[1] else blanks(it), text, flags=re.S)


class Block:
    """A block: the places between which it stands, whether it is an arm without braces, and the function that it is part of."""

    def __init__(self, start, end, is_bare, function):
        self.start, self.end, self.is_bare, self.function = start, end, is_bare, function


class Blocks:
    """The blocks of a body, whose text is that of `as_words`."""

    def __init__(self, text, body, function):
        self.function, self.found = function, []
        self.tokens = [(it.group(), it.start()) for it in TOKEN.finditer(text, *body)]
        self.block(0)

    def word(self, at):
        return self.tokens[at][0] if 0 <= at < len(self.tokens) else ""

    def group(self, at, walks):
        """The place behind the brackets that open here. What stands in them is looked through for blocks where it is code."""
        close = CLOSING[self.word(at)]
        at += 1
        while self.word(at) != close:
            if walks:
                at = self.part(at)
            else:
                at = self.group(at, False) if self.word(at) in CLOSING else at + 1
        return at + 1

    def types(self, at):
        """The place behind the angle brackets that open here, with types between them."""
        depth = 0
        while True:
            depth += {"<": 1, ">": -1}.get(self.word(at), 0)
            at += 1
            if depth == 0:
                return at

    def block(self, at):
        """Notes the block whose brace opens here, and gives the place behind it."""
        start, place = self.tokens[at][1], len(self.found)
        at = self.group(at, True)
        self.found.insert(place, Block(start, self.tokens[at - 1][1], False, self.function))
        return at

    def part(self, at):
        """The place behind the next part of code: a word, or brackets or a block with all that is in it."""
        word = self.word(at)
        if word in ("if", "while", "for"):
            return self.block(self.head(at + 1, word == "for"))
        if word == "match":
            return self.arms(self.head(at + 1, False))
        if word == "{" and (not NAME.fullmatch(self.word(at - 1)) or self.word(at - 1) in BEFORE_BLOCK):
            return self.block(at)
        if word == "<" and self.word(at - 1) == "::":
            return self.types(at)
        return self.group(at, True) if word in CLOSING else at + 1

    def head(self, at, is_for):
        """The place of the brace behind the head of a branch, a loop or a match. A brace of a pattern is passed over."""
        if is_for:
            at = self.behind_pattern(at, "in")
        while self.word(at) != "{":
            at = self.behind_pattern(at, "=") if self.word(at) == "let" else self.part(at)
        return at

    def behind_pattern(self, at, end):
        while self.word(at) != end:
            at = self.group(at, False) if self.word(at) in CLOSING else at + 1
        return at + 1

    def arms(self, at):
        """Notes the arms of a match whose brace opens here, and gives the place behind it."""
        at += 1
        while self.word(at) != "}":
            at = self.behind_pattern(at, "=>")
            at = self.block(at) if self.word(at) == "{" else self.arm(at)
            at += self.word(at) == ","
        return at + 1

    def arm(self, at):
        """Notes an arm without braces, and gives the place behind it."""
        start, place = self.tokens[at][1], len(self.found)
        while self.word(at) not in (",", "}"):
            at = self.part(at)
        last, begins = self.tokens[at - 1]
        self.found.insert(place, Block(start, begins + len(last), True, self.function))
        return at


def blocks_of(crate_folder):
    """The blocks of each source file of a crate, by its path, in the order of their starts."""
    found = {}
    for (owner, name), functions in Crate(crate_folder).functions.items():
        for function in functions:
            if function.body:
                text = as_words(function.place[0].read_text())
                blocks = Blocks(text, function.body, f"{owner}::{name}" if owner else name).found
                found.setdefault(function.place[0], []).extend(blocks)
    return {file: sorted(blocks, key=lambda it: it.start) for file, blocks in found.items()}


def marked(text, blocks, first):
    """The text with a marker in each block, numbered from `first` on."""
    inserts = []
    for number, block in enumerate(blocks, first):
        call = f" chaos_cover::mark({number});"
        if block.is_bare:
            inserts += [(block.start, 1, f"{{{call} "), (block.end, 0, " }")]
        else:
            inserts.append((block.start + 1, 1, call))
    # of inserts at one place those that end a block stand first
    for place, _, insert in sorted(inserts, key=lambda it: it[:2], reverse=True):
        text = text[:place] + insert + text[place:]
    return text
