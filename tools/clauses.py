"""The public functions of a Rattle file and their clauses, for tools/promises and tools/moved."""

import re

PUBLIC = re.compile(r'\bpub\s+(?:(?:const|unsafe|extern\s+"C")\s+)*fn\s+(\w+)\s*(?=[<(])')


def past(text, at, opener, closer):
    """The position after the bracket that closes the one at `at`; the `>` of an arrow closes none."""
    depth = 0
    while at < len(text):
        if text[at] == opener:
            depth += 1
        elif text[at] == closer and text[at - 1 : at + 1] != "->":
            depth -= 1
            if depth == 0:
                return at + 1
        at += 1
    return at


def public(text):
    """The name of each public function, where it stands, and its clauses, each from its first word to its last bracket."""
    text = re.sub(r"//[^\n]*", lambda found: " " * len(found[0]), text)
    for found in PUBLIC.finditer(text):
        at = past(text, found.end(), "<", ">") if text[found.end()] == "<" else found.end()
        at, clauses = past(text, text.index("(", at), "(", ")"), []
        while True:
            brace = text.find("{", at)
            word = re.search(r"\b(requires|ensures|ghost)\b", text[at:brace])
            if not word:
                break
            begin, at = at + word.start(), past(text, brace, "{", "}")
            clauses.append(text[begin:at])
        yield found[1], found.start(), clauses
