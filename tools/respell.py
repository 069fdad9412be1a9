#!/usr/bin/env python3
"""Spells this repository's own definitions and lemmas as the Rattle of 2026 does, once, behind its port script.

usage: tools/respell.py [--check]

What the port script leaves: a definition, a field, a constructor or a lemma in lower camel case (`trackCount`), and a lemma whose parts are
joined by dashes. Both get snake case (`track_count`, `comes_later`). A dash stays where both of its sides are names, of a definition, of a
function or of a word of the library (`length-take`). A definition that is a type gets upper camel case.

Names of functions of src/, of exported calls, of what Rattle generates, strings, inputs and outputs stay. It turns the code of .antt files, the
clauses and `ghost use` items of .rt files, must-fail edits, and names between backticks in comments. A lemma that would have its definition's
name gets `_lem`. It runs once: --check writes nothing, and --table prints each old name and its new one.
"""

import collections
import os
import re
import sys

# Lemmas whose plain spelling is that of a word of the library which their file uses.
OTHERWISE = {"is-nan": "is_nan_lem"}

# Lemmas that the port script spelled as the definition is spelled from now on, by file. Another file may have the plain spelling as a function's.
LOCAL = {
    "crates/merge/proofs/Matching/Tables.antt": {"keys_between": "keys_between_lem"},
    "crates/merge_list/proofs/Found.antt": {"rows_in": "rows_in_lem"},
    "crates/pairing/specs/Examples.antt": {"by_place": "by_place_lem"},
}

WORD = re.compile(r"[^\s(){}\[\].;,@\"«»`]+")
DECLARED = re.compile(r"^ *(?:(?:abbrev|unfoldable|pub|data|record) )*([^\s(){}\[\].;,]+)(?: \([^)]*\)| \{[^}]*\})* :(?=\s)(?=(.*(?:\n +.*)*))", re.M)
CAMEL = re.compile(r"(?<![^\s(){}\[\].;,@\"«»])[a-z]+[a-z0-9]*[A-Z][A-Za-z0-9]*'*(?![^\s(){}\[\].;,@\"«»])")
RUST = re.compile(r"\b(?:fn|struct|enum|trait|const|static) (\w+)")
USED = re.compile(r"^\s*(?:pub |ghost )*use ([^\s;{]+?)(?:\.\{([^}]*)\})?(?: as \S+)?;?$", re.M)


def paths(top, endings):
    for folder, dirs, files in os.walk(top):
        dirs[:] = sorted(d for d in dirs if d not in ("out", "target", ".git"))
        for name in sorted(files):
            if name.endswith(endings):
                yield os.path.join(folder, name)


def read(path):
    with open(path, encoding="utf-8") as it:
        return it.read()


def code(text):
    return re.sub(r"--[^\n]*", "", text)


def snake(name):
    return re.sub(r"(?<=[a-z0-9])([A-Z])(?![A-Z])", lambda m: "_" + m.group(1).lower(), name)


def is_a_type(kind):
    return re.search(r"(?:^|→)\s*Type \d\s*(?:where)?\s*$", kind.strip()) is not None


def joined(name, names):
    """Parts that are no names are joined by _ to what stands before them."""
    parts = name.split("-")
    at, runs = 0, []
    while at < len(parts):
        for end in range(len(parts), at, -1):
            run = "_".join(parts[at:end])
            if run in names or end == at + 1:
                runs.append((run, run in names))
                at = end
                break
    spelled = runs[0][0]
    for (_, before), (run, known) in zip(runs, runs[1:]):
        spelled += ("-" if before and known else "_") + run
    return spelled


def table(files):
    declared, types, names, library = collections.OrderedDict(), set(), set(), set()
    for path, text in files.items():
        if path.endswith(".rt"):
            names |= set(RUST.findall(text))
            continue
        if not path.endswith(".antt"):
            continue
        plain = code(text)
        for path_of, items in USED.findall(plain):
            if not re.match(r"Rattle\.(?!std\b)", path_of):
                library |= {it.strip().split(" as ")[0] for it in items.split(",")}
        for name, kind in DECLARED.findall(plain):
            made = re.match(r"\s*(?:tie|goal)\.", kind) or "statement M" in kind
            if made or not re.match(r"[a-z]", name):
                continue
            declared[name] = True
            if is_a_type(kind):
                types.add(name)
            if "/specs/" in path:
                names.add(snake(name))
        # Variables too: a definition and a parameter of one name stay one name.
        for name in CAMEL.findall(plain):
            declared.setdefault(name, True)
    spelled, names = {}, names | library
    for name in declared:
        if name in library:
            continue
        new = joined(snake(name), names)
        if name in types and re.search(r"[A-Z]", name):
            new = name[0].upper() + name[1:]
        spelled[name] = OTHERWISE.get(name, new)
    for name in [it for it in spelled if "-" in it and re.search(r"[-A-Z]", it)]:
        # A lemma that would have its definition's name.
        if any(spelled[other] == spelled[name] for other in spelled if other != name):
            spelled[name] += "_lem"
    return {old: new for old, new in spelled.items() if new != old}


def turned(text, spelled):
    return WORD.sub(lambda m: spelled.get(m.group(0), m.group(0)), text)


def in_ticks(text, spelled):
    return re.sub(r"`[^`\n]+`", lambda m: turned(m.group(0), spelled), text)


def antt(text, spelled):
    lines = []
    for line in text.split("\n"):
        at = re.search(r"(?:^|\s)--(?!>)", line)
        cut = at.start() if at else len(line)
        lines.append(turned(line[:cut], spelled) + in_ticks(line[cut:], spelled))
    return "\n".join(lines)


def rt(text, spelled):
    lines, depth = [], 0
    for line in text.split("\n"):
        at = line.find("//")
        cut = at if at >= 0 else len(line)
        head, tail = line[:cut], line[cut:]
        if depth == 0 and re.match(r"\s*(?:pub )?(?:ghost use|ghost|requires|ensures|const\b.*ghost)", head):
            depth = 1
        if depth:
            head = turned(head, spelled)
            opened = head.count("{") - head.count("}")
            depth = 1 if opened > 0 else 0
        lines.append(head + in_ticks(tail, spelled))
    return "\n".join(lines)


def edit(text, spelled):
    return "\n".join(turned(it, spelled) if it.startswith(("old:", "new:")) else in_ticks(it, spelled) for it in text.split("\n"))


def main():
    top = os.path.dirname(os.path.dirname(os.path.abspath(__file__)))
    files = {}
    for path in paths(os.path.join(top, "crates"), (".antt", ".rt", ".edit")):
        files[path] = read(path)
    spelled = table(files)
    turns = {".antt": antt, ".rt": rt, ".edit": edit}
    together = collections.defaultdict(list)
    for old, new in spelled.items():
        together[new].append(old)
    for new, olds in together.items():
        if len(olds) > 1:
            print(f"look: {' and '.join(olds)} would both be {new}")
    changed = 0
    for path, text in files.items():
        local = LOCAL.get(os.path.relpath(path, top), {})
        here = set(WORD.findall(code(text) if path.endswith(".antt") else text))
        if path.endswith(".antt"):
            free = set(re.findall(r"(?<![.\w'-])([a-z][\w'-]*)(?![\w'.-])", re.sub(r"^\s*(pub )?use [^\n{]*", "", code(text), flags=re.M)))
            for old in sorted(here & set(spelled)):
                if spelled[old] in free and spelled[old] not in local:
                    print(f"look: {os.path.relpath(path, top)}: {old} would be {spelled[old]}, which stands there")
        new = turns[os.path.splitext(path)[1]](text, {**spelled, **local})
        if new != text:
            changed += 1
            if "--check" not in sys.argv:
                with open(path, "w", encoding="utf-8") as it:
                    it.write(new)
    print(f"respelled: {len(spelled)} names, {changed} files")
    if "--table" in sys.argv:
        for old, new in sorted(spelled.items()):
            print(old, new)


if __name__ == "__main__":
    main()
