#!/usr/bin/env python3
"""Brings the repository's own definitions and lemmas to snake case, once, after the toolchain's port.py: `sum-at` becomes `sum_at`.

usage: python3 tools/snake_case.py     at the top of the repository

A name is the repository's own if a file under crates/ declares it; a name that comes from the library keeps its spelling, and so does one
that has a capital in a part (`T-yes`: a dash joins a type to a word). Texts in quotes, and what Rattle makes of the source, keep theirs.
Must-fail edits, README.md and docs/ follow. It says which names would fall together, and then changes nothing.
"""

import os
import re
import sys

NAME = re.compile(r"(?<![^\s(){}\[\],;.:λ@«»`→×|])([A-Za-z_ℕℤμκ][^\s(){}\[\],;.:@«»\"`|]*)")
QUOTED = re.compile(r'b?"(?:[^"\\]|\\.)*"' + r"|b'(?:[^'\\]|\\.)'")
USE = re.compile(r"^(?:pub )?(?:ghost )?use\s+(\S+?)\.\{([^}]*)\}", re.M)
DECLARED = re.compile(r"\s*(?:(?:pub|abbrev|unfoldable|pattern)\s+)*((?:[A-Za-z_ℕℤ][^\s(){}\[\],;.:@«»]*\s+)+):(?=\s)")
BOUND = re.compile(r"(?:let|λ)\s+\(?((?:[A-Za-z_ℕℤ][^\s(){}\[\],;.:@«»=]*\s*)+)")
GROUP = re.compile(r"[({]((?:[A-Za-z_ℕℤ][^\s(){}\[\],;.:@«»]*\s+)+):")
PATTERN = re.compile(r"^\s*[A-Za-z_ℕℤ][^\s(){}\[\],;.:@«»]*\s([^:]*?)=(?=\s)")


# bound in patterns that the forms above do not see
BY_HAND = ["few-strokes", "not-nil"]


def files(ends):
    for root, folders, names in os.walk("crates"):
        folders[:] = sorted(f for f in folders if f != "out")
        for n in sorted(names):
            if n.endswith(ends):
                yield os.path.join(root, n)


def read(path):
    with open(path, encoding="utf-8") as f:
        return f.read()


def dashed(name):
    parts = name.split("-")
    return len(parts) > 1 and all(parts) and not any(p[0].isupper() for p in parts)


def own_names():
    with open("crates.txt", encoding="utf-8") as f:
        crates = {line.split(":")[0].split()[0] for line in f if line.strip() and not line.startswith("#")}
    library, own = set(), set()
    for path in files((".antt", ".rt")):
        text = read(path)
        for module, names in USE.findall(text):
            parts = module.split(".")
            for n in (x.strip().split(" as ")[0] for x in names.split(",")):
                (own if parts[0] == "Rattle" and len(parts) > 1 and parts[1] in crates else library).add(n)
        if path.endswith("/Proof.antt") or not path.endswith(".antt"):
            continue
        for line in text.split("\n"):
            line = re.sub(r"--(\s.*|$)", "", line)
            for form in (DECLARED, BOUND, GROUP, PATTERN):
                for m in form.finditer(line):
                    own.update(NAME.findall(m.group(1)))
    own.update(BY_HAND)
    return {n for n in own - library if dashed(n)}, library


def main():
    own, library = own_names()
    new = {n: n.replace("-", "_") for n in own}
    seen = set()
    for path in files((".antt",)):
        seen.update(NAME.findall(read(path)))
    both = sorted(n for n in own if new[n] in seen and n in seen and (new[n] in library or list(new.values()).count(new[n]) > 1))
    if both:
        print("these fall together: " + ", ".join(both))
        return 1

    after = {new.get(n, n) for n in seen}

    def turned(text):
        return NAME.sub(lambda m: new.get(m.group(1), m.group(1)), text)

    # port.py turns neither edits nor pages: there a name follows if its new spelling is one by now
    def told(text):
        return NAME.sub(lambda m: m.group(1).replace("-", "_") if dashed(m.group(1)) and m.group(1) not in library and m.group(1).replace("-", "_") in after else m.group(1), text)

    def around(text, turned):
        out, at = [], 0
        for m in QUOTED.finditer(text):
            out += [turned(text[at : m.start()]), m.group(0)]
            at = m.end()
        return "".join(out + [turned(text[at:])])

    paths = list(files((".antt", ".rt", ".edit"))) + ["README.md"]
    for root, _, names in os.walk("docs"):
        paths += [os.path.join(root, n) for n in sorted(names) if n.endswith(".md")]
    changed = 0
    for path in paths:
        text = read(path)
        if path.endswith(".md"):
            to = re.sub(r"`[^`\n]+`", lambda m: told(m.group(0)), text)
        elif path.endswith(".edit"):
            to = around(text, told)
        else:
            to = around(text, turned) if path.endswith(".rt") else turned(text)
        if to != text:
            changed += 1
            with open(path, "w", encoding="utf-8") as f:
                f.write(to)
    print(f"{len(own)} names, {changed} files")
    return 0


if __name__ == "__main__":
    sys.exit(main())
