#!/usr/bin/env python3
"""Respells the repository's own definitions and lemmas after port.py: snake case for each name that is no type and no module.

usage: python3 tools/respell.py          in the repository, once, right after port.py: rewrites crates/ and docs/ in place
       python3 tools/respell.py --look   prints what it would rename, and names that would fall together

A name that comes from a library keeps its spelling, and so does everything that the compiler names. Functions of src/ are in snake case already.
"""

import collections
import glob
import re
import sys

TOKEN = re.compile(r"\"(?:[^\"\\]|\\.)*\"|[^\W\d][\w'-]*(?:\.[\w'-]+)*|.", re.S)
USE = re.compile(r"^(?:ghost )?(?:pub )?use ([\w.'·◌≡-]+?)(?:\.\{(.*?)\}|(?: as ([\w'-]+)))?;?$")
CRATES = {p.split("/")[1] for p in glob.glob("crates/*/src")}

# A lemma that would fall together with the definition that it speaks of has `_lem` after its name, and a field another name.
OTHER = {"in-time": "time_in_range", "is-ready": "ready_is", "code-in": "code_in_lem"}
# The same of lemmas and fields that port.py respelled: their definitions had another spelling.
PLAIN = {n: n + "_lem" for n in ("in_blocks", "head_bytes", "two_digits", "end_line", "lines_at", "goes_on", "bits_in")}


def is_own(path):
    parts = path.split(".")
    return len(parts) > 1 and parts[0] == "Rattle" and parts[1] in CRATES


def wants(name):
    return bool(re.match(r"[a-z]", name)) and ("-" in name.rstrip("-") or re.search(r"[A-Z]", name) is not None)


def snake(name):
    if name in OTHER:
        return OTHER[name]
    name = name.replace("-", "_")
    name = re.sub(r"(?<=[a-z0-9])(?=[A-Z])|(?<=[A-Z])(?=[A-Z][a-z])", "_", name)
    return name.lower() if re.search(r"[A-Z]", name) else name


def items(text):
    """The names that a `use M.{..}` brings: pairs of the name there and the name here."""
    for it in text.split(","):
        it = it.strip()
        if not it:
            continue
        a, _, b = it.partition(" as ")
        yield a.strip(), (b or a).strip()


def scope(path, text):
    """What a file takes from libraries and from the repository, and what it declares."""
    foreign, own = set(), set()
    for line in text.split("\n"):
        m = USE.match(line)
        if not m:
            continue
        if is_own(m.group(1)):
            if m.group(3):
                own.add(m.group(3) + ".")
            for a, b in items(m.group(2) or ""):
                own |= {a, b}
        else:
            for a, b in items(m.group(2) or ""):
                foreign.add(b)
    declared = set()
    for line in text.split("\n"):
        if line.startswith("--") or USE.match(line):
            continue
        m = re.match(r"^(?:(?:abbrev|unfoldable|pub|record|data)\s+)*([^\s(){}:]+)\s(?:.*\s)?: ", line)
        if m:
            declared.add(m.group(1))
        m = re.match(r"^\s+(?:pub )?([^\s(){}:]+) : ", line)
        if m:
            declared.add(m.group(1))
    return foreign, own, declared


def respelled(path, text, fields, known, done):
    foreign, own, declared = scope(path, text)
    words = fields
    walked = path.endswith("Proof.antt")
    spec = path.endswith(".antt") and not walked

    def name(n):
        if n in PLAIN and path.endswith(".antt") and n not in foreign and (n in own or n in declared or n in words):
            return PLAIN[n]
        if not wants(n) or n in foreign:
            return n
        if spec or n in own:
            done[n].add(path)
            return snake(n)
        return n

    def path_of(t):
        parts = t.split(".")
        if len(parts) == 1:
            return name(t)
        if is_own(t):
            return ".".join(parts[:2] + [snake(p) if wants(p) and i > 0 and parts[2] in ("specs", "proofs") and not generated(parts) else p for i, p in enumerate(parts[2:])])
        if parts[0] in ("Prim", "mathlib", "native", "lib", "borrow", "denote", "Rattle", "logic", "seplogic", "heap"):
            return t
        out = [name(parts[0])]
        for p in parts[1:]:
            if parts[0] + "." in own and wants(p) and p in known:
                done[p].add(path)
                p = snake(p)
            elif p in PLAIN and p in fields:
                p = PLAIN[p]
            elif wants(p) and p in fields:
                done["." + p].add(path)
                p = snake(p)
            out.append(p)
        return ".".join(out)

    def generated(parts):
        return "declared" in parts or "contracts" in parts

    def use_line(line):
        m = USE.match(line)
        if not m or not m.group(2):
            return path_tokens(line)
        mine = is_own(m.group(1))
        out = []
        for it in m.group(2).split(","):
            a, sep, b = it.strip().partition(" as ")
            if mine and a in PLAIN and path.endswith(".antt"):
                a = PLAIN[a]
            elif mine and wants(a):
                done[a].add(path)
                a = snake(a)
            if sep and wants(b):
                b = snake(b)
            out.append(a + (sep + b if sep and a != b else ""))
        start = line[: line.index("{") + 1]
        return start + ", ".join(out) + line[line.rindex("}"):]

    def path_tokens(line):
        return "".join(path_of(t) for t in TOKEN.findall(line))

    def comment(line):
        def one(t):
            return "".join([snake(t) if wants(t) and (t in own or t in declared or ("-" not in t and t in known)) and t not in foreign else t])
        return "".join(one(t) if "." not in t else t for t in TOKEN.findall(line))

    lines = []
    for line in text.split("\n"):
        mark = "//" if path.endswith(".rt") else "--"
        if line.lstrip().startswith(mark):
            lines.append(comment(line))
        elif USE.match(line):
            lines.append(use_line(line))
        else:
            lines.append(path_tokens(line))
    return "\n".join(lines)


def main(argv):
    files = sorted(glob.glob("crates/*/src/**/*.rt", recursive=True) + glob.glob("crates/*/specs/**/*.antt", recursive=True) + glob.glob("crates/*/proofs/**/*.antt", recursive=True))
    texts = {}
    fields = set()
    for p in files:
        with open(p, encoding="utf-8") as f:
            texts[p] = f.read()
        if p.endswith(".antt") and not p.endswith("Proof.antt"):
            for line in texts[p].split("\n"):
                m = re.match(r"^\s+(?:pub )?([^\s(){}:]+) : ", line)
                if m:
                    fields.add(m.group(1))
    kebab, camel = set(), set()
    for p, t in texts.items():
        if not p.endswith("Proof.antt"):
            foreign, own, declared = scope(p, t)
            for n in (own | declared) - foreign:
                if wants(n):
                    (kebab if "-" in n else camel).add(n)
    for n in kebab:
        if n not in OTHER and snake(n) in {snake(m) for m in camel}:
            OTHER[n] = snake(n) + "_lem"
    done = collections.defaultdict(set)
    new = {p: respelled(p, t, fields, kebab | camel, done) for p, t in texts.items()}
    if "--look" in argv:
        spelled = collections.defaultdict(set)
        for n in done:
            spelled[snake(n.lstrip("."))].add(n.lstrip("."))
        print("fall together:", {k: v for k, v in spelled.items() if len(v) > 1})
        functions = collections.defaultdict(set)
        for p in files:
            if p.endswith(".rt"):
                for m in re.finditer(r"\bfn (\w+)", texts[p]):
                    functions[m.group(1)].add(p)
        print("as a function:", {k: sorted(functions[k]) for k in spelled if k in functions})
        for p, t in texts.items():
            foreign, own, declared = scope(p, t)
            after = {snake(n) for n in own | declared if wants(n)}
            plain = {PLAIN.get(n, n) for n in own | declared if not wants(n)}
            if p.endswith(".rt"):
                hidden = {m.group(1) for m in re.finditer(r"(\w+): ", t)} & after
                if hidden:
                    print("hides:", p, hidden)
            both = after & (foreign | plain)
            if both:
                print("look:", p, both)
        print(len(done), "names")
        return 0
    for p in ["README.md"] + sorted(glob.glob("docs/*.md")):
        with open(p, encoding="utf-8") as f:
            texts[p] = f.read()

        def span(m):
            return "".join(snake(t) if wants(t) and t in done else ".".join(snake(q) if wants(q) and q in done else q for q in t.split(".")) for t in TOKEN.findall(m.group(0)))

        new[p] = re.sub(r"(?<!`)`[^`\n]+`(?!`)", span, texts[p])
    for p, t in new.items():
        if t != texts[p]:
            with open(p, "w", encoding="utf-8") as f:
                f.write(t)
    print(f"respell: {len(done)} names")
    return 0


if __name__ == "__main__":
    raise SystemExit(main(sys.argv[1:]))
