#!/usr/bin/env python3
"""Brings the repository's own definitions and lemmas to the kit's spelling: words in snake case, a dash only between two names.

usage: python3 tools/respell.py [TOP]     once, after port.py, at the top of the repository

It reads which names the .antt files declare, and respells those that have a dash or a capital inside: in .antt files, in the
`ghost use` lines and the clauses of .rt files, and in the texts of must-fail edits. Functions of src/, strings and exported names
are left alone. It prints each name that changes, and stops before it writes if two names would fall together.
"""

import os
import re
import sys

# Words of the library that lemmas of this repository speak of; with the repository's own definitions, the names a dash may join.
WORDS = set(
    "length take drop append set replicate map reverse zero suc true false not cond eqb ltb leb get_or bit_and bit_or bit_xor "
    "mod div mul add sub pow and or xor shl shr all".split()
) - {"and", "or", "xor", "all", "zero", "set"}

# Lemmas that would fall together with a definition: `_lem`, or the two names that they join.
OWN = {
    "absorbed-blocks": "absorbed_blocks_lem",
    "bit-and": "bit-bit_and",
    "bit-xor": "bit-bit_xor",
    "by-party": "by_party_lem",
    "by-round": "by_round_lem",
    "constant-bits": "constant_bits_lem",
    "constant-of": "constant_of_lem",
    "rows-of": "rows_of_lem",
    "three-at": "three_at_lem",
    "unpacked-length": "unpacked_length_lem",
    "value-wrong": "value_wrong_lem",
}
# A record's field, or a module's short name, may be spelled as a definition.
BESIDE = {"public-key", "keysLength", "nextBit"}

TOKEN = re.compile(r"[^\s(){}\[\],.;:λ@]+")
DECLARED = re.compile(r"^(\s*)((?:(?:pub|abbrev|unfoldable|data|record|ruleset)\s+)*)([^\s(){}\[\],;:.@]+)((?:\s*[({][^=]*?)?)\s*:\s(.*)$")


def files(top, endings):
    for folder, dirs, names in os.walk(os.path.join(top, "crates")):
        dirs[:] = sorted(d for d in dirs if d != "out")
        for name in sorted(names):
            if name.endswith(endings):
                yield os.path.join(folder, name)


def read(path):
    with open(path, encoding="utf-8") as f:
        return f.read()


def snake(piece):
    if piece[:1].isupper():
        return piece
    return re.sub(r"(?<=[a-z0-9₀-₉])([A-Z])", lambda m: "_" + m.group(1).lower(), piece)


def declarations(top):
    """Name -> whether it is a record's field; and the names that specs/ defines."""
    found, fields, defined = set(), set(), set()
    for path in files(top, (".antt",)):
        in_record = False
        for line in read(path).split("\n"):
            if line[:1] not in ("", " "):
                in_record = bool(re.match(r"(pub )?(abbrev )?record\b", line))
            m = DECLARED.match(line)
            if not m or line.lstrip().startswith(("use ", "pub use ", "--", "mod ", "pub mod ", "let ")):
                continue
            if m.group(5).startswith("tie."):
                continue
            name = m.group(3)
            found.add(name)
            if in_record and m.group(1):
                fields.add(name)
            if "/specs/" in path:
                defined.add(snake(name))
    return found, fields, defined


def respelled(name, names):
    pieces = [snake(p) for p in name.split("-")]
    out = pieces[0]
    for before, after in zip(pieces, pieces[1:]):
        out += ("-" if before in names and after in names else "_") + after
    return out


def turn(text, table, fields, antt):
    """The text with each name of the table respelled. In a path only a field is."""
    out, last = [], 0
    for m in TOKEN.finditer(text):
        word = m.group(0)
        if word not in table:
            continue
        before = text[m.start() - 1] if m.start() else ""
        if before == "." and word not in fields:
            continue
        if text[max(0, m.start() - 4):m.start()] in ("tie.", "oal."):
            continue
        out.append(text[last:m.start()])
        out.append(table[word])
        last = m.end()
    out.append(text[last:])
    return "".join(out)


def ghost_parts(text):
    """Spans of `ghost use ..;` and of the braces of clauses in a .rt file."""
    for m in re.finditer(r"ghost use [^;]*;", text):
        yield m.start(), m.end()
    for m in re.finditer(r"\b(requires|ensures|invariant|ghost)\b[^{};]*\{", text):
        if m.group(0).startswith("ghost use"):
            continue
        depth, i = 1, m.end()
        while depth:
            depth += {"{": 1, "}": -1}.get(text[i], 0)
            i += 1
        yield m.end(), i - 1


def turn_source(text, table, fields):
    out, last = [], 0
    for start, end in sorted(set(ghost_parts(text))):
        if start < last:
            continue
        out.append(text[last:start])
        out.append(turn(text[start:end], table, fields, False))
        last = end
    out.append(text[last:])
    return "".join(out)


def name_beside(*words):
    return next((w for w in words if w in BESIDE), None)


def main():
    top = sys.argv[1] if len(sys.argv) > 1 else "."
    found, fields, defined = declarations(top)
    names = WORDS | defined
    table = {}
    for name in sorted(found):
        if "-" in name or re.match(r"^[a-z₀-₉]+[0-9]*[A-Z]", name):
            new = OWN.get(name) or respelled(name, names)
            if new != name:
                table[name] = new
    taken = {}
    bad = []
    for old, new in table.items():
        if new in taken and name_beside(old, taken[new]) is None:
            bad.append(f"{old} and {taken[new]} both become {new}")
        taken[new] = old
    texts = {p: read(p) for p in files(top, (".antt", ".rt", ".edit"))}
    for path, text in texts.items():
        words = set(TOKEN.findall(text))
        for old in words & set(table):
            if table[old] in words and old not in BESIDE and not path.endswith((".rt", ".edit", "Proof.antt")):
                bad.append(f"{path}: {old} becomes {table[old]}, which stands there")
            if path.endswith(".rt"):
                for m in re.finditer(r"\bfn (\w+)(?:<[^>]*>)?\(([^)]*)\)", text):
                    if re.search(r"\b" + re.escape(table[old]) + r"\s*:", m.group(2)):
                        bad.append(f"{path}: fn {m.group(1)} has a parameter {table[old]}, now also the name of {old}")
    for line in bad:
        print("fall together: " + line)
    if bad and "--write" not in sys.argv:
        raise SystemExit(1)
    changed = 0
    for path, text in texts.items():
        new = turn_source(text, table, fields) if path.endswith(".rt") else turn(text, table, fields, True)
        if new != text:
            changed += 1
            with open(path, "w", encoding="utf-8") as f:
                f.write(new)
    for old in sorted(table):
        print(f"{old} -> {table[old]}")
    print(f"{len(table)} names in {changed} files")


if __name__ == "__main__":
    main()
