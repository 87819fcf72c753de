#!/usr/bin/env python3
"""Brings the definitions and lemmas of this repository to the spelling of today's Rattle: words in snake case.

usage: python3 tools/respell.py [--dry]      at the top of the repository, once, right after the kit's own port.py

A name is turned where a file of some crate's specs/ or proofs/ declares it, a dash in it becoming an underscore: definitions, lemmas, fields,
constructors, and the names that a lemma binds. Names that the library has, and names that Rattle makes for the goals of a function, stay.
In the folders of proofs/ that belong to a function only imported names, fields of such records and helpers of the file's own are turned.
Comments, strings and the code of src/ stay as they are, but for names between backquotes.
"""

import collections
import os
import re
import sys

TOKEN = re.compile(r"[^\s(){}\[\].,;:=λ→×∙|`]+")
IMPORT = re.compile(r"(?m)^[ \t]*(?:pub )?(?:ghost )?use (Rattle\.\S+?|[\w.]+?)\.\{([^}]*)\}")
GOAL = re.compile(r":\s*(?:goal|need)\.")
OTHER = {"Told-of": "ToldOf"}


def crates(root):
    return sorted(c for c in os.listdir(os.path.join(root, "crates")) if os.path.isdir(os.path.join(root, "crates", c, "src")))


def files(root, ending):
    for c in crates(root):
        for folder, dirs, names in os.walk(os.path.join(root, "crates", c)):
            dirs[:] = sorted(d for d in dirs if d != "out")
            for n in sorted(names):
                if n.endswith(ending):
                    yield c, os.path.join(folder, n)


def of_function(path):
    """Whether a file lies in a folder of proofs/ that belongs to a function."""
    parts = path.split(os.sep)
    return "proofs" in parts and parts.index("proofs") < len(parts) - 2


def code_of(line, mark):
    """A line's text in front of its comment, and the comment."""
    at = -1
    while True:
        at = line.find(mark, at + 1)
        if at < 0:
            return line, ""
        if at == 0 or line[at - 1] in " \t":
            return line[:at], line[at:]


def new_name(name):
    return OTHER.get(name) or name.replace("getD", "get_or").replace("-", "_")


def imports(text):
    for m in IMPORT.finditer(text):
        for item in m.group(2).split(","):
            words = item.split(" as ")
            yield m.group(1), words[0].strip(), words[-1].strip()


def collect(root):
    """The names to turn, and for each file of a function's folder the names that it declares itself."""
    own, library, local = set(), set(), collections.defaultdict(set)
    mine = tuple(f"Rattle.{c}." for c in crates(root))
    for _, path in files(root, ".antt"):
        with open(path, encoding="utf-8") as f:
            text = f.read()
        bare = "\n".join(code_of(l, "--")[0] for l in text.split("\n"))
        for source, name, alias in imports(bare):
            if not source.startswith(mine) and not source + "." in mine:
                library.add(name)
        declared = set()
        goals = set()
        for l in bare.split("\n"):
            m = re.match(r"\s*(?:(?:pub|abbrev|unfoldable|record|data|private)\s+)*([^\s:(){}=,;]+)\s*(?:\([^=]*\)\s*|\{[^=]*\}\s*)*:(?=\s|$)", l)
            if m:
                (goals if GOAL.search(l) else declared).add(m.group(1))
        # names bound in a term: let x = .., let (x, y) = .., λ x y. .., (x : ..), [ p x ↦ .. ], and the arguments of a clause
        binders = set()
        for m in re.finditer(r"\blet ([^=:]*?)\s*[=:]|λ ([^.]*)\.|\(([^():]*?) :|\{([^{}:]*?) :|\[([^\]↦]*)↦|\|([^|↦]*)↦", bare):
            binders.update(TOKEN.findall(" ".join(g for g in m.groups() if g)))
        for l in bare.split("\n"):
            m = re.match(r"\s*\S+((?: [^=]*)?) =(?=\s|$)", l)
            if m and not l.lstrip().startswith(("let", "use", "record", "(", "λ")):
                binders.update(TOKEN.findall(m.group(1)))
        if of_function(path):
            local[path] = {w for w in declared | binders if "-" in w} - goals
        else:
            own |= {w for w in declared | binders if "-" in w or "getD" in w}
    # other names under which a file brings something in
    for ending, mark in ((".antt", "--"), (".rt", "//")):
        for _, path in files(root, ending):
            with open(path, encoding="utf-8") as f:
                bare = "\n".join(code_of(l, mark)[0] for l in f.read().split("\n"))
            own |= {alias for _, name, alias in imports(bare) if alias != name and "-" in alias}
    own = {w for w in own if re.search(r"\w", w)}
    both = own & library
    if both:
        print("respell: names that the library has too stay:", " ".join(sorted(both)))
    return own - library, library, local


def turn_tokens(text, chosen):
    return TOKEN.sub(lambda m: new_name(m.group(0)) if m.group(0) in chosen else m.group(0), text)


def turn_antt(path, text, own, library, local):
    lines = text.split("\n")
    out = []
    if of_function(path):
        imported = {alias for _, name, alias in imports(text)} | {name for _, name, alias in imports(text)}
        chosen = (own & imported) | (local[path] - library)
        fields = own
    else:
        chosen, fields = own, own
    for l in lines:
        code, comment = code_of(l, "--")
        code = turn_tokens(code, chosen)
        code = re.sub(r"\.([^\s(){}\[\].,;:=]+)", lambda m: "." + (new_name(m.group(1)) if m.group(1) in fields else m.group(1)), code)
        out.append(code + turn_quoted(comment, own))
    return "\n".join(out)


def turn_quoted(text, own):
    return re.sub(r"`([^`\n]*)`", lambda m: "`" + turn_tokens(m.group(1), own) + "`", text)


def turn_rt(text, own):
    out = []
    for l in text.split("\n"):
        code, comment = code_of(l, "//")
        pieces = re.split(r'("(?:[^"\\]|\\.)*")', code)
        pieces = [p if p.startswith('"') else turn_tokens(p, own) for p in pieces]
        out.append("".join(pieces) + turn_quoted(comment, own))
    return "\n".join(out)


def fall_together(root, own):
    """Names of one file that would become one name."""
    found = 0
    for _, path in files(root, ".antt"):
        with open(path, encoding="utf-8") as f:
            bare = "\n".join(code_of(l, "--")[0] for l in f.read().split("\n"))
        names = set(TOKEN.findall(bare))
        for w in sorted(names & own):
            if new_name(w) in names and new_name(w) != w:
                print(f"respell: {path}: {w} and {new_name(w)} fall together")
                found += 1
    return found


def main():
    dry = "--dry" in sys.argv
    root = "."
    own, library, local = collect(root)
    n = fall_together(root, own)
    if dry:
        print(len(own), "names:", " ".join(sorted(own)))
        return 1 if n else 0
    for ending, turn in ((".antt", None), (".rt", turn_rt), (".edit", turn_rt)):
        for _, path in files(root, ending):
            with open(path, encoding="utf-8") as f:
                text = f.read()
            new = turn(text, own) if turn else turn_antt(path, text, own, library, local)
            if new != text:
                with open(path, "w", encoding="utf-8") as f:
                    f.write(new)
    for folder in (".", "docs"):
        for n_ in sorted(os.listdir(os.path.join(root, folder))) if os.path.isdir(os.path.join(root, folder)) else []:
            path = os.path.join(root, folder, n_)
            if n_.endswith(".md") and n_ != "PORT.md":
                with open(path, encoding="utf-8") as f:
                    text = f.read()
                new = turn_quoted(text, own)
                if new != text:
                    with open(path, "w", encoding="utf-8") as f:
                        f.write(new)
    print(f"respell: {len(own)} names")
    return 0


sys.exit(main())
