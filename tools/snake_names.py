#!/usr/bin/env python3
"""Spells the repository's own definitions, lemmas and fields in snake case, as today's Rattle does: xorSum -> xor_sum, read-page -> read_page.

usage: snake_names.py [--list] [FOLDER]

FOLDER is the top of a checkout in which port.py has run; the default is the folder above this script. What is renamed: each name that a file
of specs/ or a file of lemmas in proofs/ declares, wherever .antt files, clauses of .rt files, must-fail edits and code spans of the pages
name it. Types, modules, functions of src/ and strings keep their names. Where the plain spelling is taken, TAKEN has another.
A second run changes nothing.
"""

import glob
import os
import re
import sys

TOP = os.path.dirname(os.path.dirname(os.path.realpath(__file__)))
TOKEN = re.compile(r'--[^\n]*|"(?:[^"\\\n]|\\.)*"|[^\s(){}.;,@"«»\[\]\\]+')
WORD = r'[^\s(){}.;,@"«»\[\]\\]+'
DECLARED = re.compile(rf"(?m)^ *(?:(?:pub|unfoldable|abbrev|pattern) +)*({WORD})(?: \{{[^{{}}\n]*\}})* :(?=\s)")
ONE_LINE = re.compile(rf"(?m)^ *(?:(?:pub|unfoldable|abbrev|pattern) +)*(?:record|data|ruleset) +({WORD})")
SPAN = re.compile(r"(`+)([^`\n]+)\1")

# Names whose plain spelling another name of the same file has, or a function of src/.
TAKEN = {
    "aloneAmong": "alone_among_places",
    "fromOne": "count_from_one",
    "fromOther": "count_from_other",
    "from-other": "from_other",
    "line-of": "line_is",
    "tooMany": "too_many_changes",
    "is-taken": "is_taken_lem",
    "bit-xor": "bit_at_xor",
    "put-line": "put_line_lem",
    "shares-check": "shares_check_lem",
}


def plain(name):
    words = re.sub(r"(?<=[a-z0-9₀-₉])[A-Z]", lambda m: "_" + m[0].lower(), name) if name[:1].islower() else name
    return words.replace("-", "_")


def read(path):
    with open(path, encoding="utf-8") as it:
        return it.read()


def of_function(path):
    return re.search(r"/proofs/.*/(?:Proof|Answers|Invariants)\.antt$", path) is not None


def files(top, *patterns):
    out = []
    for pattern in patterns:
        out += [it for it in glob.glob(os.path.join(top, pattern), recursive=True) if "/out/" not in it]
    return sorted(out)


def code_of(text):
    return re.sub(r'--[^\n]*|"(?:[^"\\\n]|\\.)*"', " ", text)


def declared(top):
    names = {}
    for path in files(top, "crates/**/*.antt"):
        if of_function(path):
            continue
        code = code_of(read(path))
        for name in DECLARED.findall(code) + ONE_LINE.findall(code):
            if plain(name) != name and re.match(r"[^\W\d_]", name) and "◌" not in name:
                names.setdefault(name, set()).add(path)
    return names


def table(top):
    """Each name's new spelling. A lemma that would have a definition's name gets _lem."""
    names = declared(top)
    humps = {plain(it) for it in names if hump(it)}
    return {it: TAKEN.get(it) or plain(it) + ("_lem" if "-" in it and not hump(it) and plain(it) in humps else "") for it in names}


def everything(top):
    """Each declared name, as it will be spelled."""
    names, out = table(top), set()
    for path in files(top, "crates/**/*.antt"):
        if not of_function(path):
            code = code_of(read(path))
            out.update(names.get(it, it) for it in DECLARED.findall(code) + ONE_LINE.findall(code))
    return out


class Spelled(dict):
    """The table for pages and must-fail edits, which port.py does not turn: a name that it has turned in the code follows."""

    def __init__(self, names, declared):
        super().__init__(names)
        self.declared = declared

    def get(self, word, other):
        return super().get(word) or (plain(word) if plain(word) in self.declared else other)


def in_antt(text, names):
    # A token behind a dot is a field or an item: it turns too. A comment turns where a span or a bare word is a name with a dash or a hump.
    def one(found):
        word = found[0]
        if word.startswith("--"):
            return in_prose(word, names)
        return names.get(word, word)

    return TOKEN.sub(one, text)


def in_prose(text, names):
    return re.sub(r"[^\s(){}.;,@\"«»\[\]\\`'’:]+(?:')*", lambda m: names.get(m[0], m[0]) if hump(m[0]) else m[0], text)


def hump(word):
    return bool(re.search(r"[a-z0-9][A-Z]", word))


CLAUSE = re.compile(r"\b(?:requires|ensures)\*?\s*(?:\w+\s*)?\{|ghost\s+use\b|\bghost\s+\w+\s*(?::\s*\{|\{)")


def in_rt(text, names):
    out, at = [], 0
    code = re.compile(r'//[^\n]*|b?"(?:\\.|[^"\\])*"')
    blank = code.sub(lambda m: " " * len(m[0]), text)
    for found in CLAUSE.finditer(blank):
        if found.start() < at:
            continue
        if "use" in found[0]:
            end = blank.index(";", found.end())
        else:
            depth, end = 1, found.end()
            while depth:
                depth += {"{": 1, "}": -1}.get(blank[end], 0)
                end += 1
        out.append(comments(text[at : found.start()], names))
        out.append(in_antt(text[found.start() : end], names))
        at = end
    out.append(comments(text[at:], names))
    return "".join(out)


def comments(text, names):
    return re.sub(r"//[^\n]*", lambda m: spans(in_prose(m[0], names), names), text)


def spans(text, names):
    def span(found):
        return found[1] + TOKEN.sub(lambda m: names.get(m[0], m[0]), found[2]) + found[1]

    return SPAN.sub(span, text)


def in_edit(text, names):
    kind = "antt"
    out = []
    for line in text.split("\n"):
        if line.startswith("file:"):
            kind = "rt" if line.strip().endswith(".rt") else "antt"
        if re.match(r"(?:old|new):", line):
            head, rest = line[:4], line[4:]
            line = head + in_antt(rest, names) if kind == "antt" or re.search(r"requires|ensures|ghost", rest) else line
        out.append(line)
    return "\n".join(out)


def main(argv):
    top = os.path.realpath(argv[-1]) if argv and not argv[-1].startswith("--") else TOP
    names = table(top)
    if "--list" in argv:
        for old, new in sorted(names.items()):
            print(old, new)
        return
    follows = Spelled(names, everything(top))
    for path in files(top, "crates/**/*.antt", "crates/**/*.rt", "crates/*/must-fail/*.edit", "README.md", "docs/**/*.md"):
        text = read(path)
        if path.endswith(".antt"):
            own = {it for it in DECLARED.findall(code_of(text))} if of_function(path) else set()
            new = in_antt(text, {k: v for k, v in names.items() if k not in own})
        elif path.endswith(".rt"):
            new = in_rt(text, names)
        elif path.endswith(".edit"):
            new = in_edit(text, follows)
        else:
            new = spans(text, follows)
        if new != text:
            with open(path, "w", encoding="utf-8") as it:
                it.write(new)


if __name__ == "__main__":
    main(sys.argv[1:])
