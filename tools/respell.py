#!/usr/bin/env python3
"""Brings the repository's own names in specs/, proofs/ and contracts to the spelling of today's Rattle.

usage: python3 tools/respell.py [--list] [ROOT]

A definition, lemma, constructor or field whose name has a dash gets underscores; one that begins with a capital, a fact or a type, gets camel case;
one that ends in a question mark, the same of an `Option`, begins with `option_` in its place.
The names are read from the files, so the script turns any earlier state of the repository alike. It changes .antt files and, in .rt files, what is
neither a comment nor a string; names of Rattle's own making (those of goals) and of the library stay. Running it again changes nothing.
The parameters, variables and second names of VARIABLES, which no file defines at the head of a line, are turned as they are listed.
With --list it prints each old name with its new one, and which new names fall together with another name.
"""

import os
import re
import sys

# a name, alone or behind the words that make it a definition, and then its type
DEFINED = re.compile(r"^\s*(?:(?:abbrev|unfoldable|pub|record|data|ruleset)\s+)*([^\s:(){}\[\].,;«»\"]+)(?:\s+[({].*)?\s*:(?=\s)")
VARIABLES = {
    name: name.replace("-", "_")
    for name in (
        "call-is closing-places closings-after d-is done-is entries-after entry-fault entry-places free-is given-pile hand-contest hand-standing here-won ks-are last-is "
        "many-closings many-entries more-entries now-held rally-contest rally-standing rules-are score-fault sheet-after side-field to-do x-is"
    ).split()
} | {"left_After": "left_after"}
EDGE = r"\s(){}\[\].,;«»\"∥"
SPARED = re.compile(r'"(?:[^"\\]|\\.)*"')


def files(root, ends):
    for folder, dirs, names in os.walk(os.path.join(root, "crates")):
        dirs[:] = sorted(d for d in dirs if d != "out")
        for name in sorted(names):
            if name.endswith(ends):
                yield os.path.join(folder, name)


def read(path):
    with open(path, encoding="utf-8") as f:
        return f.read()


def own_names(root):
    """The names that the repository itself defines, but for answers to goals."""
    found = {}
    word = re.compile(r"[A-Za-z_][\w'?-]*")
    for path in files(root, ".antt"):
        for number, line in enumerate(read(path).splitlines(), 1):
            if line.lstrip().startswith("--"):
                continue
            m = DEFINED.match(line)
            if m and "goal." not in line:
                if word.fullmatch(m.group(1)):
                    found.setdefault(m.group(1), f"{os.path.relpath(path, root)}:{number}")
            m = re.match(r"^\s*pub ((?:[a-z][\w'-]* )+):", line)
            if m and "goal." not in line:
                for name in m.group(1).split():
                    found.setdefault(name, f"{os.path.relpath(path, root)}:{number}")
    return found


def new_name(name):
    if name.endswith("?"):
        return "option_" + new_name(name[:-1])
    if "-" not in name:
        return name
    parts = name.split("-")
    if name[0].isupper():
        return "".join(p[0].upper() + p[1:] for p in parts)
    return "_".join(p.lower() for p in parts)


def code_parts(line, comment):
    """The parts of a line, each with whether it is code."""
    at = 0
    cut = len(line)
    for m in re.finditer(r'"(?:[^"\\]|\\.)*"|' + re.escape(comment), line):
        if m.group(0) == comment:
            cut = m.start()
            break
    code = line[:cut]
    for m in SPARED.finditer(code):
        yield code[at : m.start()], True
        yield m.group(0), False
        at = m.end()
    yield code[at:], True
    yield line[cut:], False


def pattern_of(names, before):
    return re.compile(rf"{before}(?<![^{EDGE}])(" + "|".join(sorted(map(re.escape, names), key=len, reverse=True)) + rf")(?![^{EDGE}])")


def turned(text, names, comment, before=""):
    pattern = pattern_of(names, before)
    lines = []
    for line in text.split("\n"):
        lines.append("".join(pattern.sub(lambda m: names[m.group(1)], part) if code else part for part, code in code_parts(line, comment)))
    return "\n".join(lines)


def together(root, found, names):
    """New names that something else has already."""
    taken = {}
    for name, place in found.items():
        if name not in names:
            taken.setdefault(name, []).append(place)
    for path in files(root, ".rt"):
        for number, line in enumerate(read(path).splitlines(), 1):
            code = line.split("//")[0]
            for m in re.finditer(r"\b(?:fn|struct|enum|trait|const|static|mod|type)\s+(\w+)|\b(\w+)\s*:(?!:)", code):
                taken.setdefault(m.group(1) or m.group(2), []).append(f"{os.path.relpath(path, root)}:{number}")
    made = {}
    for old, new in sorted(names.items()):
        made.setdefault(new, []).append(old)
    for new, olds in sorted(made.items()):
        if len(olds) > 1:
            print(f"together: {new}: {', '.join(olds)}")
        for place in taken.get(new, [])[:3]:
            print(f"taken: {new} (of {olds[0]}, {found[olds[0]]}): {place}")


def main(argv):
    show = "--list" in argv
    rest = [a for a in argv if a != "--list"]
    root = rest[0] if rest else "."
    found = own_names(root)
    names = {name: new_name(name) for name in found if new_name(name) != name}
    if show:
        for name in sorted(names):
            print(f"{name} -> {names[name]}  {found[name]}")
        together(root, found, names)
        return 0
    changed = 0
    for path in files(root, (".antt", ".rt")):
        text = read(path)
        comment = "--" if path.endswith(".antt") else "//"
        new = turned(text, names, comment) if names else text
        # a field of that name, behind a dot, is of Rattle's making
        new = turned(new, VARIABLES, comment, r"(?<!\.)")
        if new != text:
            changed += 1
            with open(path, "w", encoding="utf-8") as f:
                f.write(new)
    print(f"respell: {len(names)} names, {changed} files")
    return 0


if __name__ == "__main__":
    raise SystemExit(main(sys.argv[1:]))
