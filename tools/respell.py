#!/usr/bin/env python3
"""Spells this repository's own definitions and lemmas in snake case, after the kit's port.py has run.

usage: tools/respell.py          at the top of the repository, once

A comment turns inside its code spans alone. A name that a file of specs/ or proofs/ declares and that has a dash, or a small letter before a capital, gets plain
underscores: `row-width` becomes `row_width`, `tableIn` becomes `table_in`. A part that begins with a capital keeps it. A
name that a file imports from a library stays there, and so does a name that the prover makes, behind a dot in a
function's own folder, unless it is a function of src/. Where two names of one file would fall together, nothing is
written and they are shown.
"""

import os
import re
import sys

WORD = r'[^\s(){}.;,@"«»`]+'
DECLARED = re.compile(
    r"^ *(?:(?:abbrev|unfoldable|pub|data|record|ruleset) )*(" + WORD + r")(?: \{[^{}\n]*\}| \([^()\n]*\))* :(?= |$)", re.M
)
USE = re.compile(r"\buse +([^\s;{]+)\.\{([^}]*)\}")
FN = re.compile(r"\bfn (\w+)")


# A lemma that would get the name of the definition that it is about.
LEMMAS = {"region-text": "region_text_lem", "longer-in": "longer_in_lem", "cap-in": "cap_in_lem"}


def snake(name):
    if name in LEMMAS:
        return LEMMAS[name]
    parts = re.sub(r"(?<=[a-z0-9])[A-Z]", lambda m: "_" + m[0].lower(), name) if not name[:1].isupper() else name
    return parts.replace("-", "_")


def read(path):
    with open(path, encoding="utf-8") as f:
        return f.read()


def files(end):
    for folder, dirs, names in os.walk("crates"):
        dirs[:] = sorted(d for d in dirs if d != "out")
        for name in sorted(names):
            if name.endswith(end):
                yield os.path.join(folder, name)


def code(text):
    return re.sub(r"(?m)(^|\s)--.*$", r"\1", text)


def of_function(path):
    """Whether the file lies in the folder of a function's proof."""
    return re.search(r"/proofs/(.*/)?[^/]+/(Proof|Answers|Invariants)\.antt$", path) is not None


def main():
    antt = {p: read(p) for p in files(".antt")}
    rt = {p: read(p) for p in files(".rt")}
    functions = {m for t in rt.values() for m in FN.findall(t)}
    own = {}
    for p, t in antt.items():
        for name in DECLARED.findall(code(t)):
            if re.search(r"\w-\w|^\+\w+-\w", name) or re.match(r"[a-z]\w*[A-Z]", name):
                own.setdefault(name, set()).add(p)
    shared = {n for n, where in own.items() if any(not of_function(p) for p in where)}
    library = {}
    for p, t in list(antt.items()) + list(rt.items()):
        library[p] = {
            w.strip().split(" as ")[-1]
            for path, items in USE.findall(t)
            if not re.match(r"Rattle\.(?!std\b)", path)
            for w in items.split(",")
        }

    def turned(p, t):
        local = {n for n in own if p in own[n]} | shared
        made = of_function(p)

        def word(m):
            name = m[2]
            if m[1] == ".":
                if made and snake(name) in functions and "-" in name and name not in library[p]:
                    return "." + snake(name)
                if made or name not in shared:
                    return m[0]
                return "." + snake(name)
            if name not in local or name in library[p]:
                return m[0]
            return m[1] + snake(name)

        def words(x):
            return re.sub(r"(^|[^\w\-+′']|(?<=[({ ]))(" + WORD + ")", word, x)

        def line(x):
            parts = re.split(r"(?:(?<=\s)|^)(?=--)", x, maxsplit=1)
            told = re.sub(r"`([^`]*)`", lambda m: "`" + words(m[1]) + "`", parts[1]) if len(parts) > 1 else ""
            return words(parts[0]) + told

        return "\n".join(line(x) for x in t.split("\n"))

    out, clash = {}, []
    for p, t in antt.items():
        new = turned(p, t)
        before = set(re.findall(WORD, code(t)))
        after = {}
        for w in before:
            v = turned(p, w)
            after.setdefault(v, set()).add(w)
        clash += [(p, v, ws) for v, ws in after.items() if len(ws) > 1]
        out[p] = new
    for p, t in rt.items():
        def clause(m):
            return turned(p, m[0])
        out[p] = re.sub(r"ghost use [^;]*;|(?:requires|ensures)\*?(?: \w+)? \{[^{}]*(?:\{[^{}]*\}[^{}]*)*\}|ghost [^;{]*\{[^{}]*\}", clause, t)
        out[p] = re.sub(r"`(" + WORD + ")`", lambda m: "`" + snake(m[1]) + "`" if m[1] in shared else m[0], out[p])
    if clash:
        for p, v, ws in clash:
            print(f"falls together: {p}: {v}: {sorted(ws)}")
        if "--anyway" not in sys.argv:
            raise SystemExit(1)
    n = 0
    for p, new in out.items():
        if new != (antt.get(p) or rt.get(p)):
            n += 1
            with open(p, "w", encoding="utf-8") as f:
                f.write(new)
    print(f"{len(shared)} names, {n} files")


if __name__ == "__main__":
    main()
