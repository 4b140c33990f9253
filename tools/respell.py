#!/usr/bin/env python3
"""Spells this repository's own names in Rattle's way: words in snake case, types and modules in camel case.

usage: python3 tools/respell.py table    writes tools/respelled.tsv: each name that specs/ and proofs/ declare, old and new
       python3 tools/respell.py turn     turns every file below the current folder by that table
       python3 tools/respell.py clashes  lists new names that stand already where they would be read

A dash stays where it joins two names of definitions. In a file's own variables every dash becomes an underscore.
Names of libraries, and what Rattle generates of a function, stay. Code in .rt has no name that turns.
"""

import collections
import os
import re
import sys

HERE = os.path.dirname(os.path.realpath(__file__))
TABLE = os.path.join(HERE, "respelled.tsv")
DECLARED = re.compile(
    r"^( *)((?:(?:pub|unfoldable|abbrev|pattern|data|record|ruleset)\s+)*)([^\s(){}.;,@\"«»:]+)"
    r"((?:\s*\{[^{}\n]*\})*)\s*((?:\([^\n]*?\)\s*|\{[^\n]*?\}\s*)*):(?=\s|$)"
)
# A word of antt: what stands between blanks, brackets, dots, commas and semicolons.
WORD = re.compile(r"[^\s(){}.;,@\"«»\[\]|]+")
USE = re.compile(r"^ *(?:(?:pub|unfoldable|ghost) )*use ([^\s{;]+?)(?:\.\{([^}]*)\}|(?: as ([^\s;]+))?)(;?) *$", re.M)
SPAN = re.compile(r"`[^`\n]+`")
# The library's words after which lemmas are named.
LIBRARY = set("append length take drop get_or set map nil cons none one suc zero replicate overwrite le lt eqb ltb leb".split())
SPECIAL = {"getD": "get_or"}
# Lemmas and fields that would be spelled like the definition that they speak of.
MET = (
    "at_level block_words count_at end_line first_two free_names in_scope is_block joined_to last_name left_below no_lines "
    "none_written read_names stands_at takes_part two_operands word_test"
).split()


def crates(root="."):
    return set(os.listdir(os.path.join(root, "crates")))


def is_own(path, own):
    parts = path.split(".")
    return parts[0] == "Rattle" and len(parts) > 1 and parts[1] in own


def in_words(name):
    """The name's parts between dashes, each in snake case."""
    parts = []
    for part in name.split("-"):
        for old, new in SPECIAL.items():
            part = part.replace(old, new)
        parts.append(re.sub(r"(?<=[a-z0-9])[A-Z]", lambda m: "_" + m[0].lower(), part))
    return parts


def turns(name):
    """Whether the name is one of words: it begins with a small letter and has a dash or a capital within."""
    if not re.match(r"[a-z]", name) or "′" in name:
        return False
    return bool(re.search(r"[a-z0-9][A-Z]", name)) or ("-" in name and not name.endswith("-"))


def is_type_name(name):
    return bool(re.match(r"[A-Z]", name))


def texts(kinds=(".antt", ".rt")):
    for folder, dirs, files in os.walk("crates"):
        dirs[:] = sorted(d for d in dirs if d != "out")
        for f in sorted(files):
            if f.endswith(kinds):
                yield os.path.join(folder, f)


def read(path):
    with open(path, encoding="utf-8") as f:
        return f.read()


def is_walk(path):
    return re.search(r"/proofs/(.*/)?(Proof|Answers|Invariants)\.antt$", path) is not None


def imported(text, own):
    """The names that a file takes from libraries, under the spelling that it uses."""
    names = set()
    for m in USE.finditer(text):
        if is_own(m[1], own):
            continue
        for item in (m[2] or "").split(","):
            item = item.strip()
            if item:
                names.add(item.split(" as ")[-1].strip())
    return names


def respelled(name, definitions):
    parts = in_words(name)
    if len(parts) == 1:
        return parts[0]
    # the last dash that joins two names of definitions stays
    n = len(parts)
    for cut in range(n - 1, 0, -1):
        left, right = "_".join(parts[:cut]), "_".join(parts[cut:])
        if left in definitions and right in definitions:
            return left + "-" + right
    return "_".join(parts)


def table():
    own = crates()
    declared, definitions = set(), set(LIBRARY)
    for path in texts((".antt",)):
        if is_walk(path):
            continue
        for line in read(path).splitlines():
            if line.lstrip().startswith("--"):
                continue
            m = DECLARED.match(line)
            if not m:
                continue
            name = m[3]
            declared.add(name)
            if "/specs/" in path and re.search(r"unfoldable|abbrev", m[2]):
                definitions.add("_".join(in_words(name)))
    # A name that some file takes from a library keeps its spelling.
    kept = set()
    for path in texts():
        kept |= imported(read(path), own)
    rows = {n: respelled(n, definitions) for n in declared if turns(n) and n not in kept}
    rows = {old: new for old, new in rows.items() if old != new}
    # A lemma that would be spelled like a definition ends in _lem.
    taken = declared - set(rows)
    taken |= {new for old, new in rows.items() if "-" not in old}
    for old in sorted(o for o in rows if "-" in o):
        if rows[old] in taken:
            rows[old] += "_lem"
        if rows[old] in taken:
            print("meets:", old, rows[old])
        taken.add(rows[old])
    for old in sorted(o for o in rows if "-" not in o):
        if rows[old] in declared:
            if rows[old] not in MET:
                print("declared already:", old, rows[old])
    rows |= {n: n + "_lem" for n in MET if n in declared}
    with open(TABLE, "w", encoding="utf-8") as f:
        for old in sorted(rows):
            f.write(f"{old}\t{rows[old]}\n")
    print(len(rows), "names")


def rows():
    return dict(line.split("\t") for line in read(TABLE).splitlines())


def turn_word(word, names, free, lib):
    """free: whether a word that the table does not have may be a variable of the file's own."""
    if word in lib:
        return word
    if word in names:
        return names[word]
    if free and turns(word):
        return "_".join(in_words(word))
    return word


def turn_code(code, names, free, lib):
    def one(m):
        behind_dot = m.start() > 0 and code[m.start() - 1] == "."
        return turn_word(m[0], names, free and not behind_dot, lib)

    return WORD.sub(one, code)


def turn_span(text, names):
    return SPAN.sub(lambda s: "`" + WORD.sub(lambda m: names.get(m[0], m[0]), s[0][1:-1]) + "`", text)


def turn_antt(text, names, free, lib):
    out = []
    for line in text.split("\n"):
        at = re.search(r"(?:^|(?<=\s))--(?=\s|$)", line)
        code, comment = (line[: at.start()], line[at.start() :]) if at else (line, "")
        out.append(turn_code(code, names, free, lib) + turn_span(comment, names))
    return "\n".join(out)


CLAUSE = re.compile(r"^( *)(requires|ensures|ghost)\b[^{;\n]*\{")
ATTRIBUTE = re.compile(r"^ *#!?\[tactic\(")


def turn_rt(text, names, lib):
    aliases = {}
    for m in re.finditer(r"ghost use ([^;]+);", text):
        for a in re.finditer(r" as ([^\s,;}]+)", m[1]):
            if turns(a[1]):
                aliases[a[1]] = "_".join(in_words(a[1]))
    known = dict(names)
    known.update(aliases)
    out, depth, ghost = [], 0, False
    for line in text.split("\n"):
        at = re.search(r"(?<!:)//", line)
        code, comment = (line[: at.start()], line[at.start() :]) if at else (line, "")
        if depth == 0 and not ghost:
            ghost = bool(re.match(r"\s*ghost use\b", code))
            clause = not ghost and CLAUSE.match(code)
        else:
            clause = None
        if ghost:
            code = turn_code(code, known, False, lib)
            ghost = ";" not in code
        elif clause or depth:
            depth += code.count("{") - code.count("}")
            code = turn_code(code, known, True, lib)
            if re.match(r"\s*\}?\s*$", code) and depth <= 0:
                depth = 0
        elif ATTRIBUTE.match(code):
            code = turn_code(code, known, False, lib)
        out.append(code + turn_span(comment, names))
    return "\n".join(out)


def turned(path, text, names, own):
    lib = imported(text, own)
    if path.endswith(".rt"):
        return turn_rt(text, names, lib)
    return turn_antt(text, names, not is_walk(path), lib)


def turn():
    names, own = rows(), crates()
    n = 0
    for path in texts():
        text = read(path)
        new = turned(path, text, names, own)
        if new != text:
            n += 1
            with open(path, "w", encoding="utf-8") as f:
                f.write(new)
    for path in pages():
        text = read(path)
        new = turn_span(text, names)
        if new != text:
            n += 1
            with open(path, "w", encoding="utf-8") as f:
                f.write(new)
    print(n, "files turned")


def pages():
    for folder in ("docs", "docs/notes", "."):
        for f in sorted(os.listdir(folder)):
            if f.endswith(".md") and f not in ("PORT.md", "PORTING-LEFT.md"):
                yield os.path.join(folder, f)


def clashes():
    names, own = rows(), crates()
    for path in texts():
        text = read(path)
        lib = imported(text, own)
        words = collections.Counter()
        for line in text.split("\n"):
            if path.endswith(".rt"):
                code = re.sub(r"//.*", "", line)
                words.update(re.findall(r"[\w-]+", code))
            else:
                code = re.sub(r"(?:^|(?<=\s))--(?=\s|$).*", "", line)
                words.update(WORD.findall(code))
        for w in words:
            new = turn_word(w, names, not is_walk(path) and path.endswith(".antt"), lib)
            if new != w and new in words:
                print(f"{path}: {w} -> {new}")


if __name__ == "__main__":
    if len(sys.argv) != 2 or sys.argv[1] not in ("table", "turn", "clashes"):
        sys.exit(__doc__)
    {"table": table, "turn": turn, "clashes": clashes}[sys.argv[1]]()
