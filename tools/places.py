#!/usr/bin/env python3
"""Lists the places in crates/*/src that today's Rattle may say more plainly, by the eight points of docs/DESIGN-PASS.md.

    tools/places.py [COMMIT] [POINT..]     of the working tree, or of a commit; all points, or those named

Each line is `FILE:LINE: TEXT`; after each kind of place stands how many there are. A place is a candidate: the page says what became of it.
"""
import re
import subprocess
import sys
from collections import defaultdict

POINTS = {
    "1": [
        ("a refusal passed on by a match or a test", r"Err\([a-z_]*\) => (return )?Err\(|None => (return )?Err\(|Err\([a-z_]+\) => None|Ok\(\(\)\) => Ok\(\(\)\)|\.is_err\(\) \{|if let Err\(|if let Some\(fault\)"),
        ("a function that answers a number for a kind or a refusal", r"fn [a-z_]+\(.*\) -> u8\b"),
        ("a field or parameter that holds a kind or a refusal as a number", r"^\s+(pub |pub\(crate\) )?(code|fault|winner|kind): u8|\bcode: u8\b"),
        ("a field that is a flag", r"^\s+(pub |pub\(crate\) )?[a-z_]+: bool,"),
    ],
    "3": [
        ("a loop by `while`", r"^\s*while "),
        ("a loop over a range of numbers", r"^\s*for [a-z_]+ in .*\.\."),
    ],
    "4": [
        ("a function from a value to its text, letter, name or bytes", r"fn [a-z_]*(text|letter|name|record|note|line)\b.*-> (&'static|u8|char|Result<String)"),
        ("a function from a number, letter or word to a value", r"fn [a-z_]*(side_of|side_word|of_word|parse_side|parse_entry|command_of|from_[a-z]+)\b.*-> Option<"),
        ("a function from one type to another", r"fn (call_answer|settle_answer|code)\b"),
        ("a value copied by a match", r"^\s*Some\((\w+::\w+)\) => Some\(\1\),$"),
        ("a hand-written `impl` of equality, order, copying or default", r"^impl.* (PartialEq|Eq|PartialOrd|Ord|Clone|Copy|Default|Hash) for "),
    ],
    "6": [
        ("an array of a constant length", r"\[[^\[\];]+; [A-Za-z0-9_]+\]"),
        ("an index by a kind's number", r"as usize\]"),
        ("a field that is a length or a place beside a slice", r"^\s+(pub |pub\(crate\) )?(count|at|len|length): usize,"),
    ],
    "7": [
        ("a match over the formats that picks what to run", r"^\s*(Format::)?Game => [a-z_:]+\("),
        ("a match over what to call", r"^\s*(Call|Command)::[A-Z][A-Za-z]*(\(.*\))? => (self\.|ongoing\.|[a-z_]+\()"),
    ],
}


def files(commit):
    names = subprocess.run(["git", "ls-tree", "-r", "--name-only", commit] if commit else ["git", "ls-files", "-co", "--exclude-standard"],
                           check=True, capture_output=True, text=True).stdout.split()
    for name in sorted(names):
        if re.match(r"crates/[^/]+/(src/.*\.rt|proofs/.*\.antt)$", name):
            if commit:
                text = subprocess.run(["git", "show", f"{commit}:{name}"], check=True, capture_output=True, text=True).stdout
            else:
                try:
                    text = open(name).read()
                except FileNotFoundError:
                    continue
            yield name, text


def functions(text):
    """The functions of a source: line, name, signature, clauses, body."""
    for found in re.finditer(r"^[ \t]*(?:#\[.*\]\n[ \t]*)?(?:pub(?:\(crate\))? )?(?:extern \"C\" )?fn (\w+)", text, re.M):
        depth, at, clauses, start = 0, found.end(), [], None
        head_end = None
        while at < len(text):
            rest = text[at:]
            clause = re.match(r"\n\s+(?:ensures|requires)(?:\*)?(?: (\w+))? \{", rest)
            if depth == 0 and clause:
                head_end = head_end or at
                level, end = 1, at + clause.end()
                while level:
                    level += {"{": 1, "}": -1}.get(text[end], 0)
                    end += 1
                clauses.append(re.sub(r"\s+", " ", text[at + clause.end():end - 1]).strip())
                at = end
                continue
            char = text[at]
            if char == ";" and depth == 0:
                head_end = head_end or at
                break
            if char == "{" :
                if depth == 0:
                    head_end = head_end or at
                    start = at
                depth += 1
            elif char == "}":
                depth -= 1
                if depth == 0:
                    break
            at += 1
        body = text[start + 1:at] if start else ""
        yield text.count("\n", 0, found.start(1)) + 1, found.group(1), text[found.end():head_end or at], clauses, body


def shape(body):
    """A body with every name, number and literal replaced by where it first stands."""
    body = re.sub(r"//.*", "", body)
    tokens = re.findall(r"b?'[^']*'|b?\"[^\"]*\"|[A-Za-z_]\w*|\d[\w.]*|[^\s\w]", body)
    keep = {"let", "mut", "match", "if", "else", "for", "while", "in", "return", "self", "Some", "None", "Ok", "Err", "as"}
    seen = {}
    out = []
    for token in tokens:
        if token in keep or not re.match(r"[\w'\"]", token):
            out.append(token)
        else:
            out.append(str(seen.setdefault(token, len(seen))))
    return " ".join(out), len(tokens)


def twins(sources):
    groups = defaultdict(list)
    for name, text in sources:
        for line, function, _, _, body in functions(text):
            form, size = shape(body)
            if size >= 12:
                groups[form].append(f"{name}:{line}: {function}")
    return [group for group in groups.values() if len(group) > 1]


def repeated(sources):
    facts, lists = defaultdict(list), defaultdict(list)
    for name, text in sources:
        for line, function, head, clauses, _ in functions(text):
            for clause in clauses:
                fact = re.sub(r"\b(log|roll|closings|places|answers|self|pile|ongoing|result)\b", "_", clause)
                facts[fact].append(f"{name}:{line}: {function}")
            names = re.findall(r"(\w+): ", head[head.find("("):].split("->")[0])
            for i in range(len(names)):
                for k in (3, 4, 5):
                    if i + k <= len(names):
                        lists[" ".join(names[i:i + k])].append(f"{name}:{line}: {function}")
    lists = {f: w for f, w in lists.items() if len(w) > 2}
    longest = {f: w for f, w in lists.items() if not any(f in g and f != g and w == lists[g] for g in lists)}
    return {f: w for f, w in facts.items() if len(w) > 2}, longest


def main():
    arguments = sys.argv[1:]
    commit = arguments.pop(0) if arguments and not re.fullmatch(r"[1-8]", arguments[0]) else None
    wanted = arguments or [str(n) for n in range(1, 9)]
    every = list(files(commit))
    sources = [(n, t) for n, t in every if "/src/" in n]
    for point in wanted:
        for kind, pattern in POINTS.get(point, []):
            count = 0
            for name, text in sources:
                for number, line in enumerate(text.split("\n"), 1):
                    if re.search(pattern, line) and not line.strip().startswith(("//", "ghost")):
                        print(f"{name}:{number}: {line.strip()}")
                        count += 1
            print(f"{point}: {kind}: {count}\n")
        if point == "2":
            groups = twins(sources)
            for group in groups:
                print("\n".join(group) + "\n")
            print(f"2: functions alike but for names, numbers and literals: {sum(map(len, groups))} in {len(groups)} groups\n")
        if point == "5":
            facts, lists = repeated(sources)
            for fact, where in facts.items():
                print(f"{len(where)} times: {fact}\n  " + "\n  ".join(where))
            print(f"5: facts in the contracts of three or more functions: {len(facts)}\n")
            for names, where in lists.items():
                print(f"{len(where)} times: {names}\n  " + "\n  ".join(where))
            print(f"5: parameters that stand together in three or more functions: {len(lists)}\n")
        if point == "8":
            for crate in sorted({n.split("/")[1] for n, _ in every}):
                proofs = [t for n, t in every if n.startswith(f"crates/{crate}/proofs/")]
                answers = sum(len(re.findall(r"^pub [^\s:]+ : goal\.", t, re.M)) for t in proofs)
                print(f"{crate}: {len(proofs)} files, {sum(t.count(chr(10)) for t in proofs)} lines, {answers} answers")
            print()


main()
