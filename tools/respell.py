#!/usr/bin/env python3
"""Brings the names of definitions and lemmas to snake case: `tableLength` to `table_length`, `all-elim` to `all_elim`.

usage: python3 tools/respell.py     at the top of the repository, once, right after the kit's port.py

It goes over specs/, proofs/ and the clauses of src/, and over the lines of must-fail edits. A lemma whose name would be that of
a definition gets `_lem` at its end. Names that the kit makes for the proof of a function are left alone.
"""
import collections
import os
import re

NAME = re.compile(r"[A-Za-z_Α-ωµ][A-Za-z0-9_'₀-₉ᴰ◌Α-ω-]*")
LEMMAS = """administration-step are-labels changed-sound empty-pair halves-up held-within in-range is-code is-table links-fit
masks-at may-activate on-table levels-fit sessions-fit pair-refreshed roles-fit same-words says-yes session-refreshed
session-step sessions-hold shows-image table-length with-table same-user""".split()
AS_THEY_ARE = {"pair_fits": "pair_fits_lem"}
RT_CLAUSE = re.compile(r"^\s*(ghost use|requires|ensures|ghost)\b")


def files():
    for folder, dirs, names in os.walk("crates"):
        dirs[:] = sorted(d for d in dirs if d != "out")
        for name in sorted(names):
            yield os.path.join(folder, name)


def read(path):
    with open(path, encoding="utf-8") as f:
        return f.read()


def snake(name):
    name = name.replace("-", "_")
    return re.sub(r"([a-z0-9])([A-Z])", lambda m: m.group(1) + "_" + m.group(2).lower(), name)


def declared():
    """Each name that a definition, lemma or field of ours has, with whether it is a field, outside proofs of functions."""
    names, fields = collections.defaultdict(set), set()
    for path in files():
        if not path.endswith(".antt") or path.endswith("/Proof.antt"):
            continue
        record = None
        for line in read(path).split("\n"):
            indent = len(line) - len(line.lstrip())
            if record is not None and line.strip() and indent <= record:
                record = None
            m = re.match(r"\s*(?:unfoldable |abbrev |pub )*((?:[^\s(){}:,;.|]+\s+)+):\s", line)
            if m:
                for name in m.group(1).split():
                    if NAME.fullmatch(name):
                        names[name].add(path)
                        if record is not None:
                            fields.add(name)
            if re.match(r"\s*(?:pub )?record\b.*\bwhere\s*$", line):
                record = indent
    return names, fields


def main():
    names, fields = declared()
    new = {}
    for name in names:
        if name[0].isupper() or snake(name) == name:
            continue
        new[name] = snake(name) + ("_lem" if name in LEMMAS else "")
    new.update(AS_THEY_ARE)

    def turn(text, proof):
        def one(m):
            name, start = m.group(0), m.start()
            if name not in new:
                return name
            if start and text[start - 1] == ".":
                before = re.search(r"([^\s(){}\[\];,.]*)\.$", text[:start])
                module = before and before.group(1)[:1].isupper()
                if name.endswith("-is") and name not in fields:
                    return name
                if not module and (proof or name in fields):
                    return snake(name)
            return new[name]

        return NAME.sub(one, text)

    def quoted(said):
        return re.sub(r"`([^`]*)`", lambda m: "`" + (new.get(m.group(1)) or m.group(1)) + "`", said)

    for path in files():
        old = read(path) if path.endswith((".antt", ".rt", ".edit")) else None
        if old is None:
            continue
        lines, edited = [], ""
        for line in old.split("\n"):
            if path.endswith(".antt"):
                code, mark, said = line.partition("-- ") if "-- " in line else (line, "", "")
                line = turn(code, path.endswith("/Proof.antt")) + mark + quoted(said)
            elif path.endswith(".rt"):
                code, mark, said = line.partition("// ") if "// " in line else (line, "", "")
                if RT_CLAUSE.match(code) or re.match(r"\s*[×(]", code):
                    code = turn(code, False)
                line = code + mark + quoted(said)
            else:
                if line.startswith("file:"):
                    edited = line[5:].strip()
                elif line.startswith(("old:", "new:")) and (edited.endswith(".antt") or "ensures" in line or "requires" in line):
                    line = line[:4] + turn(line[4:], edited.endswith("/Proof.antt"))
            lines.append(line)
        text = "\n".join(lines)
        if text != old:
            with open(path, "w", encoding="utf-8") as f:
                f.write(text)


main()
