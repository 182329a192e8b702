"""What a page (.md) has: its words, its sentences, and the reader that its first paragraph names."""

import re
from dataclasses import dataclass
from functools import cached_property

FEWEST = 3  # words of a sentence
FENCE = re.compile(r"^[ \t]*```.*?^[ \t]*```[ \t]*$", re.M | re.S)
COMMENT = re.compile(r"<!--.*?-->", re.S)
PICTURE = re.compile(r"!\[[^\]]*\]\([^)]*\)")
HEADING = re.compile(r"#+ |-{3,}$")  # or a line across the page
DELIMITER = re.compile(r"(?=.*\|)[ |:-]*-{3}[ |:-]*")  # the line below the head of a table
ITEM = re.compile(r"(?:[-*+]|\d+\.) +")
QUOTE = re.compile(r"(?:> ?)+")
LINK = re.compile(r"\[([^\]]*)\]\([^)]*\)")
CODE = re.compile(r"(`+)(?!`).*?(?<!`)\1(?!`)")
# the mark that ends a sentence, which isn't of an ellipsis or an abbreviation, and what closes behind it
END = re.compile(r"(?<!\.)(?<!\be\.g)(?<!\bi\.e)(?<!\bcf)(?<!\bvs)[.?!][*_\")\]]* +")
READER = re.compile(r"\b(?:[Tt]his page is for ([^.:;]+)|[Ff]or ((?:you|whoever|[^.,:;]{1,40} who)\b[^.:;]*))")


def before_table(lines):
    """The lines of a block that stand before its table, if it has one."""
    heads = [at for at, line in enumerate(lines) if line.startswith("|") or DELIMITER.fullmatch("".join(lines[at + 1 : at + 2]))]
    return lines[: heads[0]] if heads else lines


def paragraphs(text):
    """Paragraphs, items of lists and quotations, a line each. Tables, code, headings, pictures and comments are none."""
    found = []
    for block in re.split(r"\n\s*\n", PICTURE.sub("", COMMENT.sub("", FENCE.sub("\n", text)))):
        found.append([])
        for line in before_table([QUOTE.sub("", it.strip(), count=1) for it in block.split("\n")]):
            if HEADING.match(line):
                found.append([])
            elif ITEM.match(line):
                found.append([ITEM.sub("", line, count=1)])
            else:
                found[-1].append(line)
    plain = [LINK.sub(r"\1", " ".join(" ".join(lines).split())) for lines in found]
    return [it for it in plain if it]


def sentences(paragraph):
    """The sentences of a paragraph. A mark in code ends none."""
    masked = CODE.sub(lambda it: re.sub(r"\S", "x", it[0]), paragraph)
    cuts = [0, *(it.end() for it in END.finditer(masked)), len(paragraph)]
    found = [paragraph[begin:end].strip() for begin, end in zip(cuts, cuts[1:])]
    return [it for it in found if len(it.split()) >= FEWEST]


@dataclass(frozen=True)
class Page:
    """A page by its name and its text."""

    name: str
    text: str

    @cached_property
    def words(self):
        """How many words it has, as `wc -w` counts them."""
        return len(self.text.split())

    @cached_property
    def sentences(self):
        return [it for paragraph in paragraphs(self.text) for it in sentences(paragraph)]

    @cached_property
    def lengths(self):
        """How many words each sentence has."""
        return [len(it.split()) for it in self.sentences]

    @cached_property
    def average(self):
        return sum(self.lengths) / len(self.lengths) if self.lengths else 0.0

    @cached_property
    def longest(self):
        return max(self.lengths, default=0)

    @cached_property
    def reader(self):
        """The reader that the title or the first paragraph names, or None."""
        title = re.match(r"\s*# (.*)", self.text)
        for line in [*([title[1]] if title else []), *paragraphs(self.text)[:1]]:
            found = READER.search(line)
            if found:
                return (found[1] or found[2]).strip()
        return None
