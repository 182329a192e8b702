"""Finds links of pages (.md) that lead nowhere: files, and headings of pages."""

import re
import urllib.parse

LINK = re.compile(r"\[[^\]]*\]\(([^)\s]+)\)")
FENCE = re.compile(r"^```.*?^```", re.M | re.S)


def anchors(page):
    """The names by which the headings of a page are linked."""
    heads = re.findall(r"^#+ (.*)$", FENCE.sub("", page.read_text()), re.M)
    plain = [re.sub(r"[^\w\- ]", "", re.sub(r"\[([^\]]*)\]\([^)]*\)", r"\1", it).lower()).strip() for it in heads]
    return {it.replace(" ", "-") for it in plain}


def broken(page, link):
    """What is wrong with a link of a page, if anything."""
    path, _, name = link.partition("#")
    target = (page.parent / urllib.parse.unquote(path)).resolve() if path else page
    if not target.exists():
        return f"the link {link} leads nowhere"
    if name and target.suffix == ".md" and name not in anchors(target):
        return f"the link {link} names no heading"
    return None


def problems(pages):
    """The links of these pages that lead nowhere, each with its place."""
    for page in pages:
        text = FENCE.sub(lambda it: re.sub(r"[^\n]", " ", it[0]), page.read_text())
        for link in LINK.finditer(text):
            why = None if re.match(r"[a-z]+:", link[1]) else broken(page, link[1])
            if why:
                yield page, text.count("\n", 0, link.start()) + 1, why
