#!/usr/bin/env python3
"""Brings the repository's own definitions, lemmas, fields and local names to the spelling of today's Rattle.

usage: tools/respell.py KIT        at the top of the repository, once, after KIT/port/port.py
       tools/respell.py KIT --map  prints the names that change, and writes nothing

Words are in snake case, so 'setUp' becomes 'set_up' and 'xor-take' becomes 'xor_take'. What stays as it is:
- names that the kit's library has, in its own spelling (length-drop);
- names that stand in capitals in RFC 7253 or FIPS 197, and what is made of them (OCB-ENCRYPT, OCB-ENCRYPT-inputs, AES-128, Offset-0);
- what a check makes for a function's proof, in the files that cite it (tie.Need-returns, slice-aggregate-store, byte-spec);
- functions of src/, exported names, strings, types, modules, and each word of a comment but those that are such a name.
Lemmas whose new name would be that of a function or definition beside them get '_lem' behind it: LEMMAS, and in one file alone LEMMAS_HERE.
"""

import os
import re
import sys

KEPT = re.compile(r"^(OCB-|AES-|HASH-|Offset-0$|[A-Z]-|[a-z][A-Z]$|is_Is)")
TOKEN = re.compile(r"[A-Za-z0-9_◌ℕ₀-₉'′⊕]+(?:-[A-Za-z0-9_◌ℕ₀-₉'′⊕*]+)*")
DECLARED = re.compile(r"^\s*(?:(?:abbrev|unfoldable|pub|record|data|ruleset|syntax)\s+)*([^\s(){}.,;:]+)(?:\s+[({].*)?\s*:(?:\s|$)")
LEMMAS = {
    "add-state",
    "bit-xor",
    "by-open",
    "new-entry",
    "new-length",
    "nonce-block",
    "of-twelve",
    "open-refused",
    "rounds-for",
    "row-size",
    "seal-refused",
    "sub-bytes",
    "table-bytes",
    "tag-most",
    "text-length",
    "unless-add",
    "unless-read",
}
# in the new spelling already before this script runs
LEMMAS_HERE = {"crates/spill_examples/proofs/Examples.antt": {"no_table"}, "crates/aes/proofs/Promise.antt": {"to_block"}}


def files(root, endings):
    for folder, dirs, names in os.walk(root):
        dirs[:] = sorted(d for d in dirs if d not in ("out", ".git"))
        for name in sorted(names):
            if name.endswith(endings):
                yield os.path.join(folder, name)


def read(path):
    with open(path, encoding="utf-8") as it:
        return it.read()


def snake(name):
    if name in LEMMAS:
        return name.replace("-", "_") + "_lem"
    if KEPT.match(name):
        return name
    words = re.sub(r"([a-z0-9])([A-Z])", lambda m: m[1] + "_" + m[2].lower(), name) if re.match(r"[a-z◌]", name) else name
    return words.replace("-", "_").replace("′", "'")


def library(kit):
    known = set()
    for path in files(os.path.join(kit, "rattle"), (".antt",)):
        known.update(TOKEN.findall(read(path)))
    for path in files(os.path.join(kit, "toolchain"), (".antt",)):
        known.update(TOKEN.findall(read(path)))
    return known


def own(root, known):
    """The names to change, and in what they change: those that a named file has, and those that a proof file states for itself."""
    found = {}
    for path in files(os.path.join(root, "crates"), (".antt",)):
        walked = os.path.basename(path) == "Proof.antt"
        for line in read(path).splitlines():
            code = line.split("--")[0] if line.lstrip().startswith("--") else line
            if walked:
                m = DECLARED.match(code)
                names = [m[1]] if m and not re.search(r":\s*(\{[^}]*\} → )?(tie\.|statement)", code) and not code.startswith((" ", "pub ")) else []
            else:
                names = TOKEN.findall(code)
            for name in names:
                new = snake(name)
                if new != name and name not in known and not name.endswith(("-spec", "-requires")) and not name.startswith(("Need-", "slice-", "array-")):
                    found[name] = new
    return found


def turned(text, names, source):
    """The text with its names changed. In a source file a string stays, and so does code: a name that changes is no Rust name."""
    def one(m):
        return m[0] if m[0][0] == '"' else names.get(m[0], m[0])
    both = re.compile((r'"(?:[^"\\]|\\.)*"|' if source else "") + TOKEN.pattern)
    return both.sub(one, text)


def prose(text, names):
    """A page: names between backticks."""
    return re.sub(r"`[^`\n]+`", lambda m: turned(m[0], names, False), text)


def main(argv):
    if not argv or not os.path.isdir("crates"):
        print(__doc__)
        return 2
    names = own(".", library(argv[0]))
    if "--map" in argv:
        for name in sorted(names):
            print(name, names[name])
        return 0
    for path in files("crates", (".antt", ".rt", ".edit")):
        before = read(path)
        here = {name: name + "_lem" for name in LEMMAS_HERE.get(os.path.relpath(path), ())}
        after = turned(before, names | here, path.endswith(".rt"))
        present = set(TOKEN.findall(before))
        for name in sorted(present & set(names)):
            if names[name] in present - set(here):
                print(f"look: {path}: {name} falls together with {names[name]}")
        if after != before:
            with open(path, "w", encoding="utf-8") as it:
                it.write(after)
    for path in files("audit", (".txt",)):
        before = read(path)
        after = turned(before, names, False)
        if after != before:
            with open(path, "w", encoding="utf-8") as it:
                it.write(after)
    for path in ["README.md", *files("docs", (".md",))]:
        before = read(path)
        after = prose(before, names)
        if after != before:
            with open(path, "w", encoding="utf-8") as it:
                it.write(after)
    return 0


if __name__ == "__main__":
    raise SystemExit(main(sys.argv[1:]))
