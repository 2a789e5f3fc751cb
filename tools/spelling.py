#!/usr/bin/env python3
"""Brings the names of this repository's own definitions and lemmas to one spelling: words in snake case, types in camel case.

usage: tools/spelling.py         in a repository that port.py has turned: rewrites crates/ in place, once
       tools/spelling.py --say   writes nothing, and prints the renamings and the names that would fall together

A dash in a name becomes `_`, in a type's name it goes and the next letter is made large. Only names that files of crates/ define are turned; a name that a
file imports from the library, names that Rattle makes of goals, comments and strings stay.
"""
import collections
import os
import re
import sys

WORD = r"[^\W\d][\w'₀-₉]*(?:-[\w'₀-₉]+)+"
NAME = re.compile(r"(?<![\w'₀-₉-])" + WORD + r"(?![\w'₀-₉-])")
USE = re.compile(r"(?m)^\s*(?:pub\s+)?(?:ghost\s+)?use\s+([\w.']+?)\.\{([^}]*)\}")
SIGN = re.compile(r"^(\s*)(?:(?:abbrev|unfoldable|pub|data|record|ruleset)\s+)*((?:" + WORD + r"\s*)+)(?=[:({]|\s:|$)")
BOUND = re.compile(r"[({]\s*((?:[^\W\d][\w'₀-₉-]*\s+)*?[^\W\d][\w'₀-₉-]*)\s*:\s")
LET = re.compile(r"\blet\s+(" + WORD + r")\s*[:=]")
LAMBDA = re.compile(r"λ\s*([^.]*?)\.")
# names that functions of src/ have
BESIDE = {
    "then-number": "number_behind",
    "then-text": "text_behind",
    "hex-value": "value_of_hex",
    "hex-digit": "digit_of_hex",
    "screen-numbers": "numbers_of_screen",
    "parser-numbers": "numbers_of_parser",
    "sign-shown": "shown_sign",
    "sequence-byte": "byte_of_sequence",
    "marks-after": "marks_then",
    "colour-after": "colour_then",
}


def sources(root):
    for folder, dirs, files in os.walk(os.path.join(root, "crates")):
        dirs[:] = sorted(d for d in dirs if d != "out")
        for f in sorted(files):
            if f.endswith((".antt", ".rt")):
                yield os.path.join(folder, f)


def turned(name):
    if name in BESIDE:
        return BESIDE[name]
    if name[0].isupper():
        return "".join(p[0].upper() + p[1:] for p in name.split("-"))
    return name.replace("-", "_")


def comment(path):
    return "//" if path.endswith(".rt") else "--"


def pieces(path, text):
    """The text in pieces, each with whether names in it may be turned: not in comments, nor in strings of .rt files."""
    mark = re.escape(comment(path))
    pattern = r"(?:(?<=\s)|^)" + mark + r"[^\n]*"
    if path.endswith(".rt"):
        pattern = r"//[^\n]*|b?\"(?:[^\"\\]|\\.)*\"|b?'(?:[^'\\\n]|\\.)'"
    at = 0
    for m in re.finditer(pattern, text, re.M):
        yield text[at : m.start()], True
        yield m.group(0), False
        at = m.end()
    yield text[at:], True


def code(path, text):
    return "".join(t if own else " " for t, own in pieces(path, text))


def imported(text):
    """The names that a file takes from the library."""
    names = set()
    for m in USE.finditer(text):
        if re.match(r"Rattle\.(std|core|std_\w+|io)\b", m.group(1)) or not m.group(1).startswith("Rattle."):
            names |= {n.split(" as ")[0].strip() for n in m.group(2).split(",")}
            names |= {n.split(" as ")[-1].strip() for n in m.group(2).split(",")}
    return names


def defined(path, text):
    """The dashed names that a file defines, but for answers to goals."""
    names = set()
    for line in text.split("\n"):
        m = SIGN.match(line)
        if m and re.match(r"\s*(use|elim|let|rw|in|open)\b", line) is None:
            rest = line[m.end() :]
            if re.match(r"\s*:\s*goal\.", rest):
                continue
            if ":" in rest or re.search(r"\b(record|data)\b", line):
                names |= set(m.group(2).split())
    for m in BOUND.finditer(text):
        names |= {n for n in m.group(1).split() if "-" in n}
    for m in LET.finditer(text):
        names.add(m.group(1))
    for m in USE.finditer(text):
        names |= {n.split(" as ")[1].strip() for n in m.group(2).split(",") if " as " in n}
    for m in LAMBDA.finditer(text):
        names |= {n for n in re.findall(WORD, m.group(1))}
    return {n for n in names if "-" in n}


def goals(path, text):
    """The names in a file of answers that Rattle makes of goals."""
    return set(re.findall(r"\bgoal\.(" + WORD + ")", text))


def main(argv):
    root = os.path.dirname(os.path.dirname(os.path.abspath(__file__)))
    if os.path.isdir("crates"):
        root = os.getcwd()
    say = argv == ["--say"]
    texts = {p: open(p, encoding="utf-8").read() for p in sources(root)}
    bare = {p: code(p, t) for p, t in texts.items()}
    own = set()
    for p, t in bare.items():
        if p.endswith(".antt"):
            own |= defined(p, t)
    changed = collections.Counter()
    for p, t in texts.items():
        keep = imported(bare[p]) | (goals(p, bare[p]) if re.search(r"as goal\b", t) else set())
        plain = set(re.findall(r"[^\W\d][\w'₀-₉]*", bare[p]))

        def turn(m):
            n = m.group(0)
            if n not in own or n in keep:
                return n
            changed[n] += 1
            if say and turned(n) in plain:
                print(f"{os.path.relpath(p, root)}: {n} meets {turned(n)}")
            return turned(n)

        new = "".join(NAME.sub(turn, piece) if yes else piece for piece, yes in pieces(p, t))
        if new != t and not say:
            with open(p, "w", encoding="utf-8") as f:
                f.write(new)
    by = collections.defaultdict(set)
    for n in changed:
        by[turned(n)].add(n)
    for n, olds in sorted(by.items()):
        if len(olds) > 1:
            print("fall together: " + " ".join(sorted(olds)))
    print(f"{len(changed)} names, {sum(changed.values())} places")
    if say:
        left = collections.Counter()
        for p in texts:
            keep = imported(bare[p]) | goals(p, bare[p])
            for n in NAME.findall(bare[p]):
                if n not in own and n not in keep:
                    left[n] += 1
        print("left: " + " ".join(f"{n}({k})" for n, k in left.most_common(400)))


if __name__ == "__main__":
    main(sys.argv[1:])
