#!/usr/bin/env python3
"""Lists the places of the design pass (docs/DESIGN-PASS.md) in the crates of a checkout, point by point.

usage: design_places.py [CHECKOUT [POINT]]     with a point, its places one by one; else their numbers
"""
import collections
import glob
import re
import sys

ROOT = sys.argv[1] if len(sys.argv) > 1 else "."
POINT = sys.argv[2] if len(sys.argv) > 2 else None

PLACES = collections.OrderedDict()


def place(point, kind, where, text):
    PLACES.setdefault((point, kind), []).append((where, text.strip()))


class Function:
    def __init__(self, path, line, crate, name, head, body):
        self.path, self.line, self.crate, self.name, self.head, self.body = path, line, crate, name, head, body
        self.exported = 'extern "C"' in head
        self.signature = re.split(r"\n +(?:requires|ensures|ghost)\b", head)[0]
        self.ensures = "\n".join(re.findall(r"(?m)^ +ensures.*$", head))
        self.where = "%s:%d %s" % (path[len(ROOT):].lstrip("/"), line, name)

    def result(self):
        m = re.search(r"\)\s*->\s*([^\n{]+)$", self.signature.strip())
        return m.group(1).strip() if m else ""

    def parameters(self):
        m = re.search(r"\((.*)\)", self.signature, re.S)
        return [p.strip() for p in re.split(r",(?![^<\[(]*[>\])])", m.group(1)) if p.strip()] if m else []


def functions():
    for path in sorted(glob.glob(ROOT + "/crates/*/src/**/*.rt", recursive=True)):
        text = open(path).read()
        crate = path.split("/crates/")[1].split("/")[0]
        for m in re.finditer(r"(?m)^( *)((?:pub(?:\(\w+\))? )?(?:extern \"C\" )?fn (\w+))", text):
            indent = m.group(1)
            start = m.start(2)
            open_brace = re.compile(r"(?m)(^%s\{$| \{$| \{\}$)" % indent).search(text, start)
            # a contract puts the brace on a line of its own
            if not open_brace:
                continue
            head = text[start:open_brace.start()]
            end = re.compile(r"(?m)^%s\}" % indent).search(text, open_brace.end())
            body = text[open_brace.end():end.start() if end else len(text)]
            yield Function(path, text.count("\n", 0, start) + 1, crate, m.group(3), head, body)


FUNCTIONS = list(functions())

# 1. numbers for refusals and kinds, flags with a value beside, places "or n" for none
for f in FUNCTIONS:
    if not f.exported and re.search(r"\b(Answer|Size|Inspection|Tallied)$", f.result()) and f.name != "from":
        place(1, "refusals by number", f.where, f.signature)
    if f.result() == "usize" and re.search(r"\b(FirstFault|Stop|Lowest|Finds|Fault|FirstNo)\b", f.ensures):
        place(1, "a place, or the end where there is none", f.where, f.signature)
    if re.search(r"\b(which|kind|status): (usize|u32)", f.signature):
        place(1, "kinds by number", f.where, f.signature)
    if not f.exported and f.result() == "u32" and f.name not in ("number", "into", "from"):
        place(1, "kinds by number", f.where, f.signature)
for path in sorted(glob.glob(ROOT + "/crates/*/src/**/*.rt", recursive=True)):
    text = open(path).read()
    for m in re.finditer(r"(?ms)^(?:pub )?struct (\w+)(?:<[^>]*>)? \{\n(.*?)^\}", text):
        fields = re.findall(r"(?m)^ +(?:pub )?(\w+): ([^,\n]+),", m.group(2))
        flags = [n for n, t in fields if t == "bool" or n in ("wrong", "fault")]
        if flags and len(fields) > 1:
            place(1, "a flag or a place for none beside a value", "%s:%d %s" % (path[len(ROOT):].lstrip("/"), text.count("\n", 0, m.start()) + 1, m.group(1)), ", ".join(flags))
    for m in re.finditer(r"(?m)^(?:pub )?const (\w+): u32 = (\d+);", text):
        place(1, "kinds by number", "%s:%d %s" % (path[len(ROOT):].lstrip("/"), text.count("\n", 0, m.start()) + 1, m.group(1)), m.group(0))

# 2. twins: functions that are alike but for names, types and numbers
KEYWORDS = set("fn pub let mut if else return match for in while loop break continue as true false Some None Ok Err self Self usize u8 u16 u32 u64 i32 i64 bool".split())


def shape(f):
    words = re.findall(r"[A-Za-z_]\w*|\d+|\S", re.sub(r"//.*", "", f.signature + "{" + f.body))
    names = {}
    out = []
    for w in words:
        if re.match(r"\d", w):
            out.append("0")
        elif re.match(r"[A-Za-z_]", w) and w not in KEYWORDS:
            out.append("v%d" % names.setdefault(w, len(names)))
        elif w in ("u8", "u16", "u32", "u64", "i32", "i64", "usize"):
            out.append("number")
        else:
            out.append(w)
    return " ".join(out)


groups = collections.defaultdict(list)
for f in FUNCTIONS:
    if not f.exported and f.body.count("\n") >= 3:
        groups[shape(f)].append(f)
for group in groups.values():
    if len(group) > 1:
        for f in group:
            place(2, "functions alike but for names, types and numbers", f.where, "like " + ", ".join(g.name for g in group if g is not f))
for f in FUNCTIONS:
    if re.fullmatch(r"\s*if (\w+) < (\w+) \{\s*return \w+;\s*\}\s*\w+\s*", f.body):
        place(2, "min and max by hand", f.where, f.signature)

# 3. loops that count an index by hand
for f in FUNCTIONS:
    lines = f.body.split("\n")
    for i, line in enumerate(lines):
        m = re.match(r"( *)while (.*) \{$", line)
        if m:
            block = []
            for later in lines[i + 1:]:
                if later.startswith(m.group(1) + "}"):
                    break
                block.append(later)
            counters = re.findall(r"\b(\w+) \+= 1;", "\n".join(block)) + re.findall(r"\b(left) = ", "\n".join(block))
            if any(re.search(r"\b%s\b" % c, m.group(2)) for c in counters) or re.search(r"\bat\b.*<=? len\b", m.group(2)):
                place(3, "while with a counter", f.where, line)
        m = re.match(r"( *)for (\w+) in (.*)\.\.(.*) \{$", line)
        if m:
            block = []
            for later in lines[i + 1:]:
                if later.startswith(m.group(1) + "}"):
                    break
                block.append(later)
            if re.search(r"\w\[[^\]]*\b%s\b[^\]]*\]" % m.group(2), "\n".join(block)):
                place(3, "for over the indices of a slice", f.where, line)

# 4. conversion, copying and printing by hand
for f in FUNCTIONS:
    if re.fullmatch(r"\s*(?:\w+\()?(\w+) as \w+\)?\s*", f.body) and not f.exported and f.name not in ("number", "from"):
        place(4, "a conversion as a function of its own", f.where, f.signature)
    for m in re.finditer(r"numbers::wide\(", f.body):
        place(4, "calls of numbers::wide", f.where, m.group(0))
    for m in re.finditer(r"(?m)^ *(\w+)\[(\w+)\] = (\w+)\[(?:\w+ \+ )?\2\];$", f.body):
        place(4, "copying element by element", f.where, m.group(0))
    if len(re.findall(r"(?m)^ +(?:out|put_byte\(out), ?\d?.*b'", f.body)) > 1:
        place(4, "printing byte by byte", f.where, f.name)

# 5. facts in three contracts or more, and parameters that travel together
facts = collections.defaultdict(set)
for f in FUNCTIONS:
    for r in re.findall(r"(?m)^ +requires (?:\w+ )?\{ (.*) \}$", f.head):
        depth, part = 0, ""
        for c in r + "×":
            depth += c in "([{"
            depth -= c in ")]}"
            if c == "×" and depth == 0:
                fact = part.strip()
                fact = fact[1:-1] if fact.startswith("(") and fact.endswith(")") else fact
                facts[fact].add(f.where)
                part = ""
            else:
                part += c
for fact, where in facts.items():
    if len(where) > 2:
        place(5, "facts in three contracts or more", "%d contracts" % len(where), fact)
together = collections.defaultdict(set)
for f in FUNCTIONS:
    if f.exported:
        continue
    names = [p.split(":")[0].replace("mut ", "") for p in f.parameters() if ":" in p]
    for i in range(len(names) - 2):
        together[tuple(names[i:i + 3])].add(f.where)
for names, where in together.items():
    if len(where) > 2:
        place(5, "three parameters together in three functions or more", "%d functions" % len(where), ", ".join(names))

# 6. buffers with a length beside them, parallel arrays
for f in FUNCTIONS:
    if f.exported:
        continue
    ps = f.parameters()
    for a, b in zip(ps, ps[1:]):
        if re.search(r": &(mut )?\[", a) and re.fullmatch(r"(n|k|e|len|count|top|size|end|l): usize", b):
            place(6, "a slice and a length beside it", f.where, a + ", " + b)
        if re.search(r": &\[(\w+); \d+\]$", a) and re.search(r": &\[(\w+); \d+\]$", b) and a.split(": ")[1] == b.split(": ")[1]:
            place(6, "parallel arrays", f.where, a + ", " + b)

# 7. switches on what to run
for f in FUNCTIONS:
    if re.search(r"\b(which|kind): (usize|u8)", f.signature) and re.search(r"match (which|kind)\b", f.body):
        place(7, "a switch on a number", f.where, f.signature)
    if re.search(r"\b(optional|both): bool", f.signature):
        place(7, "a flag that says what to ask", f.where, f.signature)
    if re.search(r"for \w+ in .*\{\s*at \+= [\w:]+\(\s*&mut f\[at\.\.\]", f.body):
        place(7, "a loop that writes one after another", f.where, f.signature)

# 8. proofs: what answers say twice, and names that are Rattle's own
for path in sorted(glob.glob(ROOT + "/crates/*/proofs/**/*.antt", recursive=True)):
    text = open(path).read()
    lets = collections.Counter(re.findall(r"(?m)^ +let (\w+ : .*?) in", text))
    for said, n in lets.items():
        if n > 2:
            place(8, "said in three answers of a file or more", path[len(ROOT):].lstrip("/"), "%d times %s" % (n, said[:100]))
    for m in re.finditer(r"\b(?:true|false|branch)-raw\b", text):
        place(8, "names of Rattle's own", path[len(ROOT):].lstrip("/"), m.group(0))

for (point, kind), places in PLACES.items():
    if POINT is None:
        print("%s  %-55s %4d" % (point, kind, len(places)))
    elif str(point) == POINT:
        for where, text in places:
            print("%s: %s: %s" % (kind, where, re.sub(r"\s+", " ", text)))
