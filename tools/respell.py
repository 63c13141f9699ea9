#!/usr/bin/env python3
"""Brings the repository's own definitions and lemmas to the spelling of today's library: words in snake case.

usage: python3 tools/respell.py [FOLDER]     once, right after the kit's port.py, in a tree that it has turned

A name is the repository's own if a file of specs/ or proofs/ states it (files of one function's proof aside, whose
names the toolchain makes). `heldLen` becomes `held_len`, `no-entry-passed` becomes `no_entry_passed`. Types and
modules, names of functions of src/ and the library's names stay. It turns specs/, proofs/, the clauses in src/, the
texts of must-fail/*.edit, and names in backquotes in comments and in *.md.
"""

import os
import re
import sys

SKIP = ("out", ".git")
MADE = ("Proof.antt", "Answers.antt", "Invariants.antt")
TOKEN = re.compile(r"[^\s(){}\[\];,.`\"]+")
# Lemmas that would have the name of a definition which stands in the same file.
LEMMAS = {"bodies_of": "bodies_of_lem", "last-end": "last_end_lem", "thin_at": "thin_at_lem"}
STATED = re.compile(r"^\s*((?:(?:pub|abbrev|unfoldable|opaque|record|data|ruleset)\s+)*)([^\s(){}\[\];,.`\":=λ]+)\s*((?:[({][^:]*:[^)}]*[)}]\s*)*):(?!=)")
WORDS = ("module", "use", "where", "in", "let", "record", "pub", "abbrev", "unfoldable")


def files(root, ends):
    for folder, dirs, names in os.walk(root):
        dirs[:] = sorted(d for d in dirs if d not in SKIP)
        for n in sorted(names):
            if n.endswith(ends):
                yield os.path.join(folder, n)


def read(p):
    with open(p, encoding="utf-8") as f:
        return f.read()


def snake(name):
    name = re.sub(r"(?<=[a-z0-9])([A-Z])", lambda m: "_" + m.group(1).lower(), name)
    return name.replace("-", "_")


def own_names(root):
    names = set()
    for p in files(os.path.join(root, "crates"), ".antt"):
        if os.path.basename(p) in MADE and os.path.basename(os.path.dirname(p)) != "proofs":
            continue
        for line in read(p).split("\n"):
            m = STATED.match(line)
            if m and m.group(2) not in WORDS and "◌" not in m.group(2):
                names.add(m.group(2))
    return names


def library_names(text):
    """What a file imports from elsewhere than the repository."""
    found = set()
    for m in re.finditer(r"(?:ghost )?use ([\w.·]+)\.\{([^}]*)\}", text):
        own = m.group(1).startswith("Rattle.") and not m.group(1).startswith("Rattle.std.")
        if not own:
            found |= {w.strip().split(" as ")[0] for w in m.group(2).split(",")}
    return found


def turn_code(text, names, comment):
    out = []
    for line in text.split("\n"):
        i = line.find(comment)
        code, rest = (line, "") if i < 0 else (line[:i], line[i:])
        code = TOKEN.sub(lambda m: names.get(m.group(0), m.group(0)), code)
        out.append(code + turn_quoted(rest, names))
    return "\n".join(out)


def turn_quoted(text, names):
    return re.sub(r"`([^`\n]*)`", lambda m: "`" + TOKEN.sub(lambda t: names.get(t.group(0), t.group(0)), m.group(1)) + "`", text)


def main(root):
    own = own_names(root)
    names = {n: snake(n) for n in own if snake(n) != n and n[0].islower()}
    names.update(LEMMAS)
    by_new = {}
    for old, new in names.items():
        by_new.setdefault(new, []).append(old)
    for new, olds in by_new.items():
        # a lemma beside the definition that it is named after
        for old in olds:
            if len(olds) > 1 and "-" in old:
                names[old] = new + "_lem"
    by_new = {}
    for old, new in names.items():
        by_new.setdefault(new, []).append(old)
    taken = own - set(names)
    for new, olds in sorted(by_new.items()):
        if len(olds) > 1 or new in taken:
            print(f"falls together: {sorted(olds)} with {new}{' (stated)' if new in taken else ''}")
    n = 0
    for p in files(root, (".antt", ".rt", ".edit", ".md")):
        text = read(p)
        if p.endswith(".md"):
            new = turn_quoted(text, names)
        elif p.endswith(".edit"):
            new = "\n".join(l if not l.startswith(("old: ", "new: ")) else l[:5] + turn_code(l[5:], names, "--") for l in text.split("\n"))
        else:
            foreign = library_names(text)
            for f in sorted(foreign & set(names)):
                print(f"left: {p}: {f} is imported from the library")
            new = turn_code(text, {k: v for k, v in names.items() if k not in foreign}, "//" if p.endswith(".rt") else "--")
        if new != text:
            with open(p, "w", encoding="utf-8") as f:
                f.write(new)
            n += 1
    print(f"{len(names)} names, {n} files")


if __name__ == "__main__":
    main(sys.argv[1] if len(sys.argv) > 1 else ".")
