#!/usr/bin/env python3
"""Brings the repository's own names in specs/, proofs/ and clauses to one spelling: words in snake_case, types in CamelCase.

usage: python3 tools/snake_case.py [--dry | --anyway]     at the top of the repository

It goes by text. A name with a hyphen is respelled where it is the repository's own: declared in the file, or imported from a
module of one of its crates, or a field of one of its records, or a local variable. Left alone are the names of the library,
the goals that the check makes (`returns-else-x : goal.returns-else-x`), and whatever stands in comments and strings.
It says which names fall together with another, and then writes only with --anyway.
"""

import os
import re
import sys

# Words of the library that files have under the name of another of its words.
ALIASES = [("AllByRecursion", "All"), ("ContainsAt", "Has")]
# Names that would fall together with the library's.
OTHERWISE = {"bit-and": "bit_of_and", "bit-or": "bit_of_or"}
NAME = re.compile(r"[A-Za-z_][A-Za-z0-9_']*(?:[-+][A-Za-z0-9_']+)+|[A-Za-z_][A-Za-z0-9_']*")
USE = re.compile(r"(?:^|\s)(?:ghost )?use ([A-Za-z0-9_.+'-]+)\.\{([^}]*)\}", re.S)
HEAD = re.compile(r"^\s*(?:(?:abbrev|unfoldable|pub|private)\s+)*(?:(record|data)\s+)?([A-Za-z_][A-Za-z0-9_'-]*)((?:\s+[({][^:=]*:[^)}]*[)}])*)\s+:\s+(.*)$")


def crates():
    return sorted(c for c in os.listdir("crates") if os.path.isdir(os.path.join("crates", c, "src")))


def files(endings):
    for c in crates():
        for folder, dirs, names in os.walk(os.path.join("crates", c)):
            dirs[:] = sorted(d for d in dirs if d != "out")
            for n in sorted(names):
                if n.endswith(endings):
                    yield os.path.join(folder, n)


def blank(text, comment):
    """The text with comments and strings blanked out, at the same length."""
    out = []
    for line in text.split("\n"):
        line = re.sub(r'"(?:[^"\\]|\\.)*"', lambda m: " " * len(m.group()), line)
        at = re.search(comment, line)
        if at:
            line = line[: at.start()] + " " * (len(line) - at.start())
        out.append(line)
    return "\n".join(out)


def respell(name):
    if name in OTHERWISE:
        return OTHERWISE[name]
    parts = name.split("-")
    if parts[0][:1].isupper():
        return "".join(p[:1].upper() + p[1:] for p in parts)
    return "_".join(re.sub(r"(?<=[a-z0-9])([A-Z])(?=[a-z])", lambda m: "_" + m.group(1).lower(), p) for p in parts)


def is_goal(kind):
    return re.match(r"(goal|need|goals|given)\.", kind.strip()) is not None


def read(path):
    with open(path, encoding="utf-8") as f:
        return f.read()


def declared():
    """By file: the names that it declares. And the fields of all records."""
    by_file, fields = {}, set()
    for path in files(".antt"):
        here, record_at = set(), None
        for line in blank(read(path), r"--(?=\s|$)").split("\n"):
            indent = len(line) - len(line.lstrip())
            if line.strip() and record_at is not None and indent <= record_at:
                record_at = None
            if re.match(r"\s*(pub\s+)?record\b.*\bwhere\b", line):
                record_at = indent
            m = HEAD.match(line)
            if not m or is_goal(m.group(4)):
                continue
            if line[0].isspace():
                if not re.match(r"\s+(pub\s+)?[A-Za-z_]", line):
                    continue
                if record_at is not None and indent > record_at:
                    fields.add(m.group(2))
            here.add(m.group(2))
        by_file[path] = here
    return by_file, fields


def goals(text):
    return {m.group(2) for line in text.split("\n") for m in [HEAD.match(line)] if m and is_goal(m.group(4))}


def imports(text):
    own, foreign = set(), set()
    mine = {f"Rattle.{c}." for c in crates()}
    for m in USE.finditer(text):
        names = [w.split(" as ")[-1].strip() for w in m.group(2).split(",")]
        if re.search(r"\.(Goals|Given|Lts)\b", m.group(1)):
            foreign.update(names)
            continue
        (own if any(m.group(1).startswith(p) for p in mine) else foreign).update(names)
        if any(m.group(1).startswith(p) for p in mine):
            own.update(w.split(" as ")[0].strip() for w in m.group(2).split(","))
    return own, foreign


def plain(text):
    """A word of the library under its own name, and not under the name of another of its words."""
    for word, name in ALIASES:
        if f"{word} as {name}" in text:
            text = re.sub(rf"(?<![\w.]){name}(?![\w'-])", word, text).replace(f"{word} as {word}", word)
    return text


def turn(path, by_file, fields, said):
    text = plain(read(path))
    is_rt = path.endswith(".rt")
    bare = blank(text, r"//" if is_rt else r"--(?=\s|$)")
    own, foreign = imports(bare)
    kept = (goals(bare) if not is_rt else set()) | foreign
    here = own | by_file.get(path, set())
    out, last, made, seen = [], 0, {}, set()
    for m in NAME.finditer(bare):
        name = m.group()
        before = bare[m.start() - 1] if m.start() else " "
        if "-" not in name:
            seen.add((name, before == "."))
            continue
        if before == ".":
            if name not in fields and respell(name) not in fields:
                continue
        elif name in kept and name not in here:
            continue
        elif is_rt and name not in here and name not in fields:
            continue
        elif re.match(r"(returns|loop|invariant|decreases)-", name) and name not in here:
            continue
        new = respell(name)
        made.setdefault(new, set()).add(name)
        out.append(text[last : m.start()] + new)
        last = m.end()
    out.append(text[last:])
    for new, olds in made.items():
        if len(olds) > 1:
            said.append(f"{path}: {sorted(olds)} fall together as {new}")
        # code and clauses name their functions apart
        if (new, False) in seen and not is_rt and not all(o in fields for o in olds):
            said.append(f"{path}: {sorted(olds)} becomes {new}, which the file has already")
    return text, "".join(out)


def main():
    by_file, fields = declared()
    said, todo = [], []
    for path in files((".antt", ".rt")):
        _, new = turn(path, by_file, fields, said)
        if read(path) != new:
            todo.append((path, new))
    for line in said:
        print("look: " + line)
    print(f"{len(todo)} files")
    if "--dry" in sys.argv or (said and "--anyway" not in sys.argv):
        return 1 if said else 0
    for path, new in todo:
        with open(path, "w", encoding="utf-8") as f:
            f.write(new)
    return 0


if __name__ == "__main__":
    raise SystemExit(main())
