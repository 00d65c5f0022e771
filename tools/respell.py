#!/usr/bin/env python3
"""Brings the names of this repository's own definitions and lemmas to snake case, once, after port.py.

usage: python3 tools/respell.py        at the top of the repository

A name of antt that is declared in crates/ and has a capital inside or a dash is written with `_`: `imageLength` is
`image_length`, `sum-test` is `sum_test`. Names that Rattle makes (goals, and what they are called in a Proof.antt), names
of std, types and modules stay. Where a lemma would get the name of a definition, it ends in `_lem`. It turns .antt files,
clauses and comments of .rt files, edits, and code spans of pages. Functions of src/, strings, inputs and outputs stay.
"""

import collections
import os
import re
import sys

OWN = r"Rattle\.(answers|reach|cut|words|volume|writes|walk|draft|tree|audit|lookup|reading|finds|program|loader|hunks|jufferdeeg|console|leaves|probe|load_words|bench)\."
NAME = r"[A-Za-z_◌][\w'◌-]*"
TOKEN = re.compile(r"(?<![\w'◌./-])(?:\.(?=[a-z]))?" + NAME + r"|(?<=\.)" + NAME)
SPAN = re.compile(r"`[^`\n]*`")
# lemmas whose new name is that of a definition
LEMMAS = """root-words bad-name path-form header-word first_key first-key from-root record_of filled-by page-records page-acts
leads-to key_in body-words lister-at list-node is-data is-list after-lookup keys-part is-root root-fault entry-fault
list-fault root-types entry-types entry-words entry-name list-words data-words data-links block-bytes file-kind name-byte
odd-bytes""".split()
# a type, names that begin with one, and a name that std has too
STAY = {"Nearer-wf", "Below-at", "zero-le"}
TYPES = {"Comes-to": "ComesTo"}


def spelled(name):
    if name in STAY:
        return name
    if name in TYPES:
        return TYPES[name]
    parts = []
    for part in name.split("-"):
        if re.match(r"[a-z_]", part):
            part = re.sub(r"(?<=[a-z0-9])([A-Z])", lambda m: "_" + m.group(1).lower(), part)
        parts.append(part)
    new = "_".join(parts)
    return new + "_lem" if name in LEMMAS else new


def files(top, ends):
    for folder, dirs, names in os.walk(top):
        dirs[:] = sorted(d for d in dirs if d not in ("out", ".git", "target"))
        for f in sorted(names):
            if f.endswith(ends):
                yield os.path.join(folder, f)


def read(path):
    with open(path, encoding="utf-8") as f:
        return f.read()


def write(path, text):
    with open(path, "w", encoding="utf-8") as f:
        f.write(text)


def declared():
    found = set()
    for path in files("crates", ".antt"):
        proof = path.endswith("/Proof.antt")
        for line in read(path).split("\n"):
            if line.lstrip().startswith("--"):
                continue
            m = re.match(r"^\s*(?:(?:pub|abbrev|unfoldable|inductive) )*((?:" + NAME + r" )+): (.*)", line)
            if m and not m.group(1).startswith(("use ", "let ")):
                if proof and re.match(r"(tie|goal)\.", m.group(2)):
                    continue
                found.update(m.group(1).split())
            m = re.match(r"^\s*(?:pub )?(?:ruleset|data|record) (" + NAME + ")", line)
            if m:
                found.add(m.group(1))
    return found


def turned(text, table, apart=()):
    return TOKEN.sub(lambda m: word(m.group(0), table, apart), text)


def word(w, table, apart):
    dot = w.startswith(".")
    bare = w[1:] if dot else w
    if bare in apart:
        return w
    return ("." if dot else "") + table.get(bare, bare)


def comment(text, table):
    """Prose: names with a capital inside, and all names in code spans."""
    capitals = {k: v for k, v in table.items() if "-" not in k and "_" not in k}
    return SPAN.sub(lambda m: turned(m.group(0), table), turned(text, capitals))


def antt(path, table):
    text = read(path)
    # names that this file takes from elsewhere, and goals
    apart = set()
    for m in re.finditer(r"^(?:pub )?use (\S+?)\.\{(.*)\}", text, re.M):
        if not re.match(OWN, m.group(1) + "."):
            apart.update(n.split(" as ")[0].strip() for n in m.group(2).split(","))
    if path.endswith("/Proof.antt"):
        apart.update(re.findall(r"^(" + NAME + r") : (?:tie|goal)\.", text, re.M))
    out = []
    for line in text.split("\n"):
        m = re.search(r"(^|\s)--( |$)", line)
        at = m.start() if m else len(line)
        code, rest = line[:at], line[at:]
        pieces = re.split(r'("(?:[^"\\]|\\.)*")', code)
        code = "".join(p if p.startswith('"') else turned(p, table, apart) for p in pieces)
        out.append(code + comment(rest, table))
    return "\n".join(out)


def rt(path, table):
    """Clauses and `ghost use` items by a count of braces; comments; nothing else."""
    text = read(path)
    out, at = [], 0
    clause = re.compile(r"//[^\n]*|\"(?:[^\"\\]|\\.)*\"|'(?:[^'\\]|\\.)'|ghost use [^;]*;|\b(?:requires|ensures)\b\*?\s*\w*\s*\{", re.S)
    while True:
        m = clause.search(text, at)
        if not m:
            out.append(text[at:])
            return "".join(out)
        out.append(text[at : m.start()])
        end = m.end()
        if m.group(0).startswith("//"):
            out.append(comment(m.group(0), table))
        elif m.group(0)[0] in "\"'":
            out.append(m.group(0))
        elif m.group(0).startswith("ghost"):
            out.append(turned(m.group(0), table))
        else:
            depth = 1
            while depth:
                depth += {"{": 1, "}": -1}.get(text[end], 0)
                end += 1
            out.append(turned(text[m.start() : end], table))
        at = end


def older(text, now):
    def one(m):
        w = m.group(0)
        if text.startswith(".adf", m.end()):
            return w
        bare = w.lstrip(".")
        new = spelled(bare.replace("\u2032", "'"))
        return w if new == bare or new not in now else w[: len(w) - len(bare)] + new

    return TOKEN.sub(one, text)


def edit(line, now):
    if re.match(r"(old|new): ", line):
        return line[:5] + older(line[5:], now)
    return SPAN.sub(lambda m: older(m.group(0), now), line)


def main():
    names = declared()
    names.add("bitmapKey")  # a parameter
    table = {n: spelled(n) for n in names if spelled(n) != n}
    for name, new in sorted(table.items()):
        if new in names:
            print(f"look: {name} is {new} now, and there was one")
    clash = collections.Counter(table.values())
    for name, new in sorted(table.items()):
        if clash[new] > 1:
            print(f"look: {name} is {new}, as another")
    for path in files("crates", ".antt"):
        write(path, antt(path, table))
    for path in files("crates", ".rt"):
        write(path, rt(path, table))
    # edits and pages have the older spelling of what port.py turned, too
    now = (names - set(table)) | set(table.values())
    for path in files(".", ".edit"):
        write(path, "\n".join(edit(line, now) for line in read(path).split("\n")))
    for path in files(".", ".md"):
        write(path, SPAN.sub(lambda m: older(m.group(0), now), read(path)))
    print(f"{len(table)} names")
    with open(os.path.join(os.environ.get("TMPDIR", "/tmp"), "respelled.tsv"), "w") as f:
        f.writelines(f"{a}\t{b}\n" for a, b in sorted(table.items()))


if __name__ == "__main__":
    main()
