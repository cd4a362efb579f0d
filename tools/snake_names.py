#!/usr/bin/env python3
"""Brings this repository's own definitions, lemmas, fields and bound names to snake case: `someWord` and `some-word` become `some_word`.

usage: snake_names.py [--dry]      at the top of the repository, once, behind the toolchain's own port script

Types and modules keep their upper camel case, names that a file imports from a library keep theirs, and so do names that the toolchain makes
from the code (`tie.Need-..`, `c.loop-i`) and all names of Rust items. In comments only what stands between backticks is respelled. Names that
would fall together with another one are told, and those of MOVED get the name that stands there.
"""
import os
import re
import sys

TOKEN = re.compile(r"(?<![\w'·◌-])([^\W\d][\w'′]*(?:-[\w'′]+)*)(?![\w'·◌])")
# Names that would fall together with another name: a lemma beside the definition that it is about.
MOVED = {"named-in": "named_in_lem"}
# Words of the toolchain with a dash or a capital inside.
KEPT = re.compile(r"^(Need-|InvT-|MeasureT-|At-|In-|After-|Then|Else|Joined|Start|invariant-|decreases-|the-|TheVariants)")


def snake(name):
    if name in MOVED:
        return MOVED[name]
    if not re.match(r"[a-z]", name):
        return name
    s = name.replace("-", "_")
    s = re.sub(r"(?<=[a-z0-9'])([A-Z])", lambda m: "_" + m.group(1).lower(), s)
    s = re.sub(r"(?<=_)([A-Z])(?=[a-z0-9_']|$)", lambda m: m.group(1).lower(), s)
    return s


def files(root):
    for folder, dirs, names in os.walk(os.path.join(root, "crates")):
        dirs[:] = sorted(d for d in dirs if d != "out")
        for n in sorted(names):
            if n.endswith((".antt", ".rt", ".edit")):
                yield os.path.join(folder, n)


def uses(text):
    """Pairs of a module and the names imported from it."""
    for m in re.finditer(r"(?m)^\s*(?:pub )?(?:ghost )?(?:pub )?(?:open )?use ([A-Za-z·_][^\s{;]*?)(?:\.\{([^}]*)\}|(?: as \S+)?;?$)", text):
        names = []
        for part in (m.group(2) or "").split(","):
            part = part.strip()
            if part:
                names.append(part)
        yield m.group(1), names


def own_module(path, crates):
    m = re.match(r"Rattle[.·](\w+)", path)
    return bool(m) and m.group(1) in crates


DECLARED = re.compile(r"^\s*(?:(?:abbrev|unfoldable|pub|opaque|instance) )*((?:[^\W\d][\w'′-]*\s+)*[^\W\d][\w'′-]*)\s+:\s")


def declared(text):
    for line in text.split("\n"):
        if line.lstrip().startswith("--"):
            continue
        m = DECLARED.match(line)
        if m:
            for w in m.group(1).split():
                if w not in ("abbrev", "unfoldable", "pub", "record", "data", "module", "let", "where"):
                    yield w
        m = re.match(r"\s*(?:pub )?(?:record|data) (\S+)", line)
        if m:
            yield m.group(1)


def record_members(texts):
    """The fields of records, each with the files that declare it, and all other names that are declared."""
    members, others = {}, set()
    for p, t in texts.items():
        if not p.endswith(".antt") or p.endswith("/Proof.antt"):
            continue
        head = None
        for line in t.split("\n"):
            if line.strip() and not line.startswith(" "):
                head = line
            m = DECLARED.match(line)
            if m and not line.lstrip().startswith("--"):
                for w in m.group(1).split():
                    if line.startswith("  pub ") and head and re.match(r"(?:pub )?record ", head):
                        members.setdefault(w, set()).add(p)
                    else:
                        others.add(w)
    return members, others


def pieces(text, antt):
    """The text in pieces: (what, part), what being 'code', 'comment' or 'string'."""
    mark = r"--[^\n]*" if antt else r"//[^\n]*"
    i = 0
    for m in re.finditer(r'(?:(?<=\s)|^|(?<=\n))(' + mark + r')|("(?:[^"\\\n]|\\.)*")', text):
        yield "code", text[i:m.start()]
        yield ("comment" if m.group(1) is not None else "string"), m.group(0)
        i = m.end()
    yield "code", text[i:]


def main(argv):
    root = "."
    dry = "--dry" in argv
    crates = set(os.listdir(os.path.join(root, "crates")))
    texts = {p: open(p, encoding="utf-8").read() for p in files(root)}
    own = set()
    for p, t in texts.items():
        if p.endswith(".antt") and not p.endswith("/Proof.antt"):
            own |= set(declared(t))
    library = set()
    for p, t in texts.items():
        for module, names in uses(t):
            if not own_module(module, crates):
                library |= {n.split(" as ")[-1].strip() for n in names} | {n.split(" as ")[0].strip() for n in names}
    tokens = {p: set(m.group(1) for m in TOKEN.finditer(t)) for p, t in texts.items()}
    definitions = set()
    for p, t in texts.items():
        if p.endswith(".antt"):
            definitions |= {m.group(1) for m in re.finditer(r"(?m)^\s*(?:abbrev|unfoldable) (?:pub )?(\S+)", t)}
            if "/definition/" in p:
                definitions |= set(declared(t))
    members, others = record_members(texts)
    clash = {}
    for n in own:
        clash.setdefault(snake(n), set()).add(n)
    for to, ns in sorted(clash.items()):
        kept = [n for n in ns if n in definitions] or sorted(ns)[:1]
        if len(ns) > 1 and len(kept) > 1:
            print("two definitions fall together:", to, kept)
        for n in sorted(ns - set(kept)):
            # A field is only ever named behind a point or in a record: it may have a definition's name, but not where it is declared.
            where = members[n] if n in members and n not in others else tokens
            if any(n in tokens[p] and k in tokens[p] for p in where for k in kept):
                MOVED[n] = to + "_lem"
                print("beside a definition of that name:", n, "is now", MOVED[n])
    for p, t in texts.items():
        if p.endswith(".edit"):
            continue
        taken = set()
        for module, names in uses(t):
            if not own_module(module, crates):
                taken |= {n.split(" as ")[-1].strip() for n in names}
        if p.endswith(".rt"):
            taken |= {w for m in re.finditer(r"\bfn \w+\s*(?:<[^>]*>)?\(([^)]*)\)", t) for w in re.findall(r"(\w+):", m.group(1))}
        for n in sorted(tokens[p] & own):
            if snake(n) != n and snake(n) in taken:
                print("look:", p, n, "is now", snake(n), "which the file has")
    fields = {n for n in own if snake(n) != n}
    changed = 0
    for p, t in texts.items():
        antt = p.endswith(".antt")
        mine = set()
        for module, names in uses(t):
            if not own_module(module, crates):
                mine |= {n.split(" as ")[-1].strip() for n in names} | {n.split(" as ")[0].strip() for n in names}
        def turn(m, what):
            n = m.group(1)
            s = snake(n)
            if s == n or KEPT.match(n):
                return n
            before = m.string[:m.start()]
            dotted = before.endswith(".")
            if n in mine:
                return n
            if what == "comment" or not antt:
                # A Rust item keeps its name, whatever a lemma of that name is called now.
                return s if n in fields and (antt or n not in MOVED) else n
            if dotted:
                return s if n in fields else n
            return s

        out = []
        if p.endswith(".edit"):
            for line in t.split("\n"):
                if line.startswith(("old:", "new:")):
                    line = TOKEN.sub(lambda m: turn(m, "code"), line)
                out.append(line)
            new = "\n".join(out)
        else:
            for what, part in pieces(t, antt):
                if what == "code":
                    part = TOKEN.sub(lambda m: turn(m, "code"), part)
                elif what == "comment":
                    part = re.sub(r"`([^`]*)`", lambda b: "`" + TOKEN.sub(lambda m: turn(m, "comment"), b.group(1)) + "`", part)
                out.append(part)
            new = "".join(out)
        if new != t:
            changed += 1
            if not dry:
                with open(p, "w", encoding="utf-8") as f:
                    f.write(new)
    print(f"{len(fields)} names respelled in {changed} files")


main(sys.argv[1:])
