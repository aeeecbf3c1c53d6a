#!/usr/bin/env python3
"""Spells the names that the files of specs/ and proofs/ declare in snake case, and types and facts in upper camel case.

usage: tools/respell.py [--list]        at the top of the repository; --list prints the names and changes nothing

A name is turned in the file that declares it and in each file that imports it from a module of the repository, in the clauses of src/ too;
a field and a constructor wherever they stand. A function's own proof (proofs/F/) keeps the names of its goals. Where a new name meets
another in a file, a line begins with 'meets:'.
"""

import os
import re
import sys
from collections import defaultdict

TOKEN = re.compile(r"[^\s(){}\[\].;,@\"«»:λ]+")
DECLARED = re.compile(
    r"(?m)^( *)((?:pattern |unfoldable |abbrev |pub )*)(data |record )?([^\s(){}:.,]+(?: [^\s(){}:.,=]+)*)((?: \{[^{}\n]*\})*(?: \([^()\n]*\))*) :(?= |$)"
)
USE = re.compile(r"(?m)^( *)(?:ghost |pub )*use ([^\s;{]+?)\.\{([^}]*)\}")
TYPES = {"Left-over": "LeftOver", "Own-words": "OwnWords", "Own-floats": "OwnFloats"}
WORDS = {"use", "mod", "let", "open", "where", "module", "in", "with", "unfolding", "forall", "data", "record"}
# A lemma that would have its function's name, by its crate.
LEMMAS = {
    ("adpcm", "one_more"): "one_more_lem",
    ("ranges", "goes_on"): "goes_on_lem",
    ("update_alike", "words_row"): "words_row_lem",
    ("update_alike", "step_by"): "step_by_lem",
    ("floats", "is-nan"): "is_nan_lem",
    ("memory", "read-of"): "read_of_lem",
    ("dsp_file", "read-by"): "read_by_lem",
}
CHOSEN = {}


def spelled(name, crate=None):
    """The name in today's spelling, of a crate's where one is given."""
    if (crate, name) in LEMMAS:
        return LEMMAS[crate, name]
    if name in CHOSEN:
        return CHOSEN[name]
    if name in TYPES:
        return TYPES[name]
    if "-" not in name and (name[:1].isupper() or not re.search(r"[A-Z]", name)):
        return name
    name = re.sub(r"(?<=[a-z0-9ₓ])[A-Z](?=[a-z]|$|-|_)", lambda m: "_" + m[0].lower(), name)
    name = re.sub(r"(?<=[a-z0-9])[A-Z]", lambda m: "_" + m[0].lower(), name)
    return name.replace("-", "_")


def files(root, endings):
    for folder, dirs, names in os.walk(os.path.join(root, "crates")):
        dirs[:] = sorted(d for d in dirs if d not in ("out", "target"))
        for name in sorted(names):
            if name.endswith(endings):
                yield os.path.join(folder, name)


def of_function(path):
    """Whether the file is a function's own proof."""
    return re.search(r"/proofs/(.*/)?Proof\.antt$", path) is not None


def declared(text):
    """What a file declares, with whether it stands in a record or in data: a field or a constructor."""
    found = {}
    for m in DECLARED.finditer(text):
        names = m.group(4).split(" ")
        if names[0] in WORDS or names[0] == "--" or len(names) > 6:
            continue
        for name in names:
            found.setdefault(name, len(m.group(1)))
    return found


def members(text):
    """The fields and constructors that a file declares."""
    found, inside, depth = set(), False, 0
    for line in text.split("\n"):
        head = re.match(r"( *)(?:pub )*(record|data) ", line)
        if head:
            inside, depth = True, len(head.group(1))
            continue
        if not inside or not line.strip():
            continue
        if len(line) - len(line.lstrip()) <= depth:
            inside = False
            continue
        m = re.match(r" +(?:pub )*([^\s(){}:.,=]+(?: [^\s(){}:.,=]+)*)((?: \{[^{}\n]*\})*(?: \([^()\n]*\))*) :(?= |$)", line)
        if m and len(line) - len(line.lstrip()) == depth + 2:
            found |= set(m.group(1).split(" "))
    return found


def bound(text):
    """The variables that a file's lemmas bind."""
    found = set(re.findall(r"\blet ([^\s(){}:.,=]+)(?= [=:])", text))
    for names in re.findall(r"[({]([^\s(){}:.,=]+(?: [^\s(){}:.,=]+)*) : ", text):
        found |= set(names.split(" "))
    return {n for n in found if spelled(n) != n}


def ours(path, crates):
    steps = path.split(".")
    return steps[0] == "Rattle" and len(steps) > 1 and steps[1] in crates


def main(argv):
    crates = set(os.listdir("crates"))
    texts = {p: open(p, encoding="utf-8").read() for p in files(".", (".rt", ".antt"))}
    fields, everywhere = set(), set()
    for p, t in texts.items():
        if p.endswith(".antt"):
            fields |= {n for n in members(t) if spelled(n) != n}
            if not of_function(p):
                everywhere |= set(declared(t))
    for n in everywhere:
        if "-" in n and any("-" not in other and spelled(other) == spelled(n) for other in everywhere if other[:2] == n[:2]):
            CHOSEN[n] = spelled(n) + "_lem"
    turned, meets = {}, []
    for p, t in texts.items():
        crate = p.split("/")[2]
        own = declared(t) if p.endswith(".antt") and not of_function(p) else {}
        if p.endswith(".antt"):
            own = set(own) | bound(t)
        scope = {n: spelled(n, crate) for n in own if spelled(n, crate) != n}
        if of_function(p):
            # helpers of a function's proof, and not the answers to its goals
            goals = set(re.findall(r"(?m)^(?:pub |abbrev )*(\S+) : tie\.", t)) | set(re.findall(r"(?m)^pub (\S+-spec) :", t))
            scope = {n: spelled(n, crate) for n in declared(t) if n not in goals and spelled(n, crate) != n}
        theirs = set()
        for m in USE.finditer(t):
            names = [re.split(r"\s+as\s+", n.strip()) for n in m.group(3).split(",")]
            for n in names:
                if ours(m.group(2), crates):
                    scope |= {x: spelled(x, m.group(2).split(".")[1]) for x in n if spelled(x, m.group(2).split(".")[1]) != x}
                else:
                    theirs |= set(n)
        # what stands behind a module that is named whole
        behind = {m.group(1) for m in re.finditer(r"Rattle\.(?:\w+\.)+([^\s(){}\[\].;,@\"«»:λ]+)", t) if spelled(m.group(1)) != m.group(1)}
        theirs = {n for n in theirs if n not in scope}
        here = set(TOKEN.findall(t))
        for n in sorted(scope):
            if scope[n] in here and scope[n] not in scope:
                lines = [k + 1 for k, l in enumerate(t.split("\n")) if re.search(r"(?<![^\s(){}\[\];,@λ])" + re.escape(scope[n]) + r"(?![^\s(){}\[\].;,@:])", l)]
                if lines and not (p.endswith(".rt") and all(re.search(r"\b" + scope[n] + r"\(", t.split("\n")[k - 1]) for k in lines)):
                    meets.append((p, n, scope[n], lines[:6]))
        new = defaultdict(set)
        for n in scope:
            new[scope[n]].add(n)
        for n, olds in new.items():
            if len(olds) > 1:
                meets.append((p, sorted(olds), n, []))

        def turn(m):
            word, at = m.group(0), m.start()
            dotted = at > 0 and t[at - 1] == "." and at > 1 and not t[at - 2].isspace()
            if dotted:
                return scope.get(word, spelled(word)) if word in fields or word in behind else word
            if word in scope:
                return scope[word]
            if word in fields and word not in theirs:
                return spelled(word)
            return word

        if p.endswith(".rt"):
            text = re.sub(r"(?m)^.*$", lambda l: l.group(0) if re.match(r"\s*//", l.group(0)) else TOKEN.sub(lambda m: scope.get(m.group(0), m.group(0)), l.group(0)), t)
        else:
            text = TOKEN.sub(turn, t)
        if text != t:
            turned[p] = text
    if "--list" not in argv:
        for p, text in turned.items():
            with open(p, "w", encoding="utf-8") as f:
                f.write(text)
    for it in meets:
        print("meets:", *it)
    print(len(turned), "files")


if __name__ == "__main__":
    main(sys.argv[1:])
