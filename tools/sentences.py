"""Finds public functions that ensure something, and have no sentence above their first `ensures` that says what."""


def problems(sources):
    """The functions without a sentence, each with its place."""
    for crate in sources.names():
        for call, function in sources.ensuring(crate):
            file, first = function.place[0], function.ensures()[0].line
            above = file.read_text().split("\n")[first - 2].strip()
            if not above.startswith("//") or above.startswith("///"):
                yield file, first, f"`{call}` of {crate} has no sentence above its first `ensures`: say there, behind `//`, what it promises"
