#!/usr/bin/env python3
"""Turns the repository's own definitions and lemmas to the spelling of today's Rattle: words in snake case, modules in camel case.

usage: tools/spelling.py [--map]    at the top of the repository, once, after the port.py of the kit; --map prints each name turned

A name is turned where one of the repository's .antt files declares it, or a `use` line gives it (`as`): `tableParts` and
`table-is` become `table_parts` and `table_is`. Names that begin with a capital are types and stay. Functions of src/, exported C
names, strings, inputs and outputs stay. A name that would meet another in some file stays in all of them, and is printed. The
folders proofs/laws are modules: Laws.
"""
import os
import re
import sys

TOKEN = re.compile(r"[^\s(){}.;,@\"«»\[\]`]+")
DECLARED = re.compile(r"(?m)^ *(?:(?:abbrev|unfoldable|opaque|inline|pub) )*([a-z][^\s:(){}.;,]*)(?: \{[^{}\n]*\})* :")
ALIAS = re.compile(r"\bas ([a-z][^\s,}]*)")
# lemmas that port.py gave their definition's new name
SAME = {"all_digits": "allDigits", "read_number": "readNumber", "same_text": "sameText"}
PARAMETER = r"(?<![\w-]){}(?=\s*:(?!:))|\blet (?:mut )?{}\b|\bfor {}\b"


def texts():
    for folder, dirs, files in os.walk("crates"):
        dirs[:] = sorted(d for d in dirs if d != "out")
        for f in sorted(files):
            if f.endswith((".antt", ".rt", ".edit")):
                yield os.path.join(folder, f)


def respelled(name):
    words = re.sub(r"(?<=[a-z0-9])[A-Z](?![A-Z])", lambda m: "_" + m[0].lower(), name)
    return words.replace("-", "_")


def words(text):
    """The words of a text that stand for themselves: no field behind a dot or before '=', no step of a path."""
    text = re.sub(r"\buse [^\s;{]+(?=\.\{)", "use ", text)
    text = re.sub(r"\buse [^\s;{]+( as )", r"use \1", text)
    return {m[0] for m in TOKEN.finditer(text) if text[m.start() - 1 : m.start()] != "." and not re.match(r" =(?!=)", text[m.end() : m.end() + 3])}


def tokens(text):
    return set(TOKEN.findall(text))


def proof(path):
    """A function's own proof, whose names nobody else cites."""
    return path.endswith("/Proof.antt")


def without_comments(path, text):
    return re.sub(r"(?m)--.*$" if path.endswith(".antt") else r"(?m)//.*$", "", text)


def from_library(text):
    """The names that a file imports from a library: those are spelled already."""
    names = set()
    for m in re.finditer(r"\buse ([^\s;{]+)\.\{([^}]*)\}", text):
        own = re.match(r"Rattle\.(\w+)\.", m[1] + ".")
        if not own or not os.path.isdir(os.path.join("crates", own[1])):
            names |= {w.split(" as ")[0].strip() for w in m[2].split(",")}
    return names


def main():
    if sys.argv[1:] not in ([], ["--map"]):
        raise SystemExit(__doc__)
    if os.path.exists("docs/PORT.md"):
        raise SystemExit("docs/PORT.md is here: the crates have today's spelling, and a second run would turn what has it")
    files = {p: open(p, encoding="utf-8").read() for p in texts()}
    bare = {p: without_comments(p, t) for p, t in files.items()}
    library = set()
    declared = set()
    for p, t in bare.items():
        library |= from_library(t)
        if p.endswith(".antt") and not proof(p):
            declared |= set(DECLARED.findall(t))
        if not p.endswith(".edit") and not proof(p):
            declared |= {w for line in t.splitlines() if re.search(r"\buse ", line) for w in ALIAS.findall(line)}
    turned = {w: respelled(w) for w in declared if respelled(w) != w and w not in library}
    # "A lemma that would have its function's name gets `_lem`"
    functions = {new for w, new in turned.items() if "-" not in w}
    turned = {w: new + "_lem" if "-" in w and new in functions else new for w, new in turned.items()}
    kept = set()
    taken = {}
    for p, t in bare.items():
        if proof(p):
            continue
        found, standing = tokens(t), words(t)
        seen = {}
        for w in found & turned.keys():
            new = turned[w]
            if new in seen:
                kept |= {w, seen[new]}
            seen[new] = w
            # a function of that name is no word of a clause; a parameter or a local is
            if new in standing and new not in SAME if p.endswith(".antt") else re.search(PARAMETER.format(*[re.escape(new)] * 3), t):
                kept.add(w)
                taken.setdefault(w, p)
    for w in sorted(kept):
        print(f"kept: {w} (would be {turned.get(w)}), as in {taken.get(w, '?')}")
        turned.pop(w, None)
    for p, t in files.items():
        lemmas = {w: w + "_lem" for w, camel in SAME.items() if p.endswith(".antt") and camel in tokens(t)}

        def turn(m):
            return lemmas.get(m[0]) or turned.get(m[0], m[0])

        new = TOKEN.sub(turn, t)
        # a name in a comment, where it stands alone or in backticks, is turned with the rest
        new = re.sub(r"\bproofs\.laws\b", "proofs.Laws", new)
        new = re.sub(r"(?m)^((?:pub )?mod )laws$", r"\1Laws", new)
        new = re.sub(r"(?<![\w.])laws\.(?=[A-Z])", "Laws.", new)
        new = re.sub(r"\bproofs/laws\b", "proofs/Laws", new)
        if new != t:
            open(p, "w", encoding="utf-8").write(new)
    for crate in sorted(os.listdir("crates")):
        proofs = os.path.join("crates", crate, "proofs")
        for f in ("laws.antt", "laws"):
            if os.path.exists(os.path.join(proofs, f)):
                os.rename(os.path.join(proofs, f), os.path.join(proofs, "L" + f[1:]))
    print(f"{len(turned)} names turned, {len(kept)} kept")
    if "--map" in sys.argv:
        for a, b in sorted(turned.items()):
            print(f"{a}\t{b}")


if __name__ == "__main__":
    main()
