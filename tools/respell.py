#!/usr/bin/env python3
"""Brings the repository's own definitions, lemmas and record fields to snake case.

usage: respell.py            at the top, once, after port.py has run
       respell.py --table    prints the table, OLD and NEW, and writes nothing

Own names are those that an .antt file of crates/ declares. Types keep their capitals. A lemma that would get a definition's name gets
`_lem` behind it. Functions, exported names, strings, inputs and outputs stay. In pages only what stands between backticks is turned, there
also the names that port.py turned in the crates (tools/ported_names.txt).
"""
import collections
import glob
import re
import sys

WORD = r"[^\s(){}\[\],;.@\"`]+"
DECL = re.compile(r"^(\s*)((?:pub |abbrev |unfoldable |record |data |ruleset )*)((?:" + WORD + r"\s+)*?" + WORD + r")\s*:(?=\s|$)")
# What Rattle makes and an answer takes its name from.
MADE = re.compile(r"\s*:\s*(tie|goal|[\w-]+-lts)\.")


def files():
    return sorted(glob.glob("crates/*/specs/**/*.antt", recursive=True) + glob.glob("crates/*/proofs/**/*.antt", recursive=True))


def declared():
    """Names, and which of them are fields of a record."""
    names, fields = set(), set()
    for f in files():
        depth = None
        for line in open(f, encoding="utf-8"):
            if line.strip().startswith("--") or not line.strip():
                continue
            indent = len(line) - len(line.lstrip())
            if depth is not None and indent <= depth:
                depth = None
            m = DECL.match(line)
            if m and "(" not in m.group(3) and "{" not in m.group(3):
                for n in m.group(3).split():
                    names.add(n)
                    if depth is not None:
                        fields.add(n)
            if re.match(r"\s*(pub )?record\b.*where\s*$", line):
                depth = indent
    return names, fields


def snake(n):
    n = n.replace("getD", "get_or")
    if re.match(r"[A-Z]", n) and "-" not in n:
        return n
    m = re.sub(r"(?<=[^\W\d_])-|-(?=\w)|-", "_", n)
    return re.sub(r"(?<=[a-z0-9])([A-Z])(?=[a-z]|[^A-Za-z]|$)", lambda x: "_" + x.group(1).lower(), m)


def table():
    names, fields = declared()
    out, given_way = {}, set()
    imported = set()
    crates = {x.split("/")[1] for x in glob.glob("crates/*/")}
    for f in files() + sorted(glob.glob("crates/*/src/**/*.rt", recursive=True)):
        for m in re.finditer(r"^\s*(?:ghost )?use ([^\n{;]*)\{([^}]*)\}", open(f, encoding="utf-8").read(), re.M):
            part = m.group(1).split(".")
            if not (part[0] == "Rattle" and part[1] in crates):
                imported |= {x.strip().split(" as ")[-1].strip() for x in m.group(2).split(",")}
    # Definitions first: they take the plain name.
    order = sorted(names, key=lambda n: ("-" in n, n))
    for n in order:
        if n.startswith("+") or n.startswith("μ"):
            continue
        s = snake(n)
        if s == n:
            continue
        out[n] = s
    # A name that stands already, or that two come to.
    by = collections.defaultdict(list)
    for n, s in out.items():
        by[s].append(n)
    for s, ns in by.items():
        camel = [n for n in ns if "-" not in n]
        kebab = [n for n in ns if "-" in n]
        if s in imported:
            for n in ns:
                out[n] = s + "_lem"
        elif len(ns) > 1:
            assert len(camel) == 1 and len(kebab) == 1, ns
            out[kebab[0]] = s + "_lem"
        elif s in names:
            # The script of the port wrote this one; the lemma gives way.
            if camel:
                out[s] = s + "_lem"
                given_way.add(s)
            else:
                out[ns[0]] = s + "_lem"
    return out, fields, given_way


def turn(text, out, fields, skip, kind):
    def word(m):
        t = m.group(0)
        if t in skip or t not in out:
            return t
        before = text[m.start() - 1] if m.start() else " "
        if before == "." and t not in fields:
            return t
        return out[t]

    def line(l):
        if kind == "page":
            return re.sub(r"`[^`\n]*`", lambda m: re.sub(WORD, lambda w: out.get(w.group(0), w.group(0)), m.group(0)), l)
        return l

    if kind == "page":
        return "".join(line(l) for l in text.splitlines(keepends=True))
    comment = "//" if kind == "rt" else "--"
    at, parts = 0, []
    for m in re.finditer(r"\"(?:[^\"\\\n]|\\.)*\"|(?:^|(?<=\s))" + re.escape(comment) + r"[^\n]*", text, re.M):
        parts += [(text[at : m.start()], at, False), (m.group(0), m.start(), True)]
        at = m.end()
    parts.append((text[at:], at, False))
    done = []
    for part, start, kept in parts:
        if not kept:
            def each(m, start=start):
                t = m.group(0)
                if t in skip or t not in out:
                    return t
                i = start + m.start()
                if i and text[i - 1] == "." and t not in fields:
                    return t
                return out[t]
            done.append(re.sub(WORD, each, part))
        elif part.startswith(comment):
            inner = re.sub(r"`[^`\n]*`", lambda m: re.sub(WORD, lambda w: out.get(w.group(0), w.group(0)), m.group(0)), part)
            done.append(re.sub(r"(?<![\w`.-])[a-z]+[A-Z]\w*(?![\w-])", lambda m: out.get(m.group(0), m.group(0)), inner))
        else:
            done.append(part)
    return "".join(done)


def main():
    out, fields, given_way = table()
    ported = open("tools/ported_names.txt", encoding="utf-8").read().split()
    pages_out = {n: s for n, s in out.items() if n not in given_way}
    pages_out.update({n: out.get(snake(n), snake(n)) for n in ported})
    if sys.argv[1:] == ["--table"]:
        for n in sorted(out):
            print(n, out[n], sep="\t")
        return
    crates = {x.split("/")[1] for x in glob.glob("crates/*/")}
    pages = [*glob.glob("*.md"), *glob.glob("docs/**/*.md", recursive=True), *glob.glob("examples/*.md")]
    for f in files() + sorted(glob.glob("crates/*/src/**/*.rt", recursive=True)) + sorted(pages):
        kind = "page" if f.endswith(".md") else "rt" if f.endswith(".rt") else "antt"
        text = open(f, encoding="utf-8").read()
        # A function of src/ keeps a name that a lemma gave up.
        skip = set(given_way) if kind == "rt" else set()
        for m in re.finditer(r"^\s*(?:ghost )?use ([^\n{;]*)\{([^}]*)\}", text, re.M):
            part = m.group(1).split(".")
            if not (part[0] == "Rattle" and part[1] in crates):
                skip |= {x.strip().split(" as ")[-1].strip() for x in m.group(2).split(",")}
        new = turn(text, pages_out if kind == "page" else out, fields, skip, kind)
        if new != text:
            open(f, "w", encoding="utf-8").write(new)
    with open("tools/respelled.tsv", "w", encoding="utf-8") as it:
        it.writelines(f"{n}\t{s}\n" for n, s in sorted({**out, **pages_out}.items()))


main()
