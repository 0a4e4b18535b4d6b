#!/usr/bin/env python3
"""Respells the repository's own definitions and lemmas: words in snake case, types and modules in camel case.

usage: python3 tools/respell.py            at the top of the repository, once, right after the kit's port.py

It goes by the names that specs/ and proofs/ declare. Texts in quotes, pages and the sources in rust/ stay as they are.
Where a lemma, a theorem or a field would fall together with a definition, it gets `_lem` behind it.
"""

import os
import re
import sys

TOKEN = re.compile(r"[^\s(){}\[\];,.\"`|@⌜⌝]+")
DECLARED = re.compile(r"\s*(?:(?:pub|abbrev|unfoldable) )*([^\s(){}\[\];,.\":=]+)(?: [{(][^=]*[})])* :(?: |$)")
HEADED = re.compile(r"\s*(?:pub )?(?:record|data)(?: pub)? ([^\s(){}]+)")
IMPORT = re.compile(r"(?:ghost )?use ([^{]+?)\.?(?:\{(.*)\})?;?$")
WORDS = ("let", "in", "record", "data", "module", "use", "λ")

# Fields with a definition's name, in records that no later field reads by it; lemmas that no file has beside the definition.
PLAIN = {"statement-outside", "text-after", "text-short", "principal-outside", "wrong-entry", "repeated-entry", "of-kind", "goal-outside", "list-short", "list-after"}
# What port.py respelled already, because std has the word, and in which crates a definition has the name too.
RESPELLED = {"too_long": ("file",), "in_order": ("requests",), "read_named": ("sentences",)}
# Two meanings: a lemma in these crates, a field in the others.
LEMMA_IN = {"in-range": ("file/proofs",), "entry-of": ("encoding",)}
# A definition of the library has the name, and only texts here.
NOT_OURS = {"not-false"}


def texts(root, endings):
    for folder, dirs, files in os.walk(os.path.join(root, "crates")):
        dirs[:] = sorted(d for d in dirs if d != "out")
        for f in sorted(files):
            if f.endswith(endings):
                yield os.path.join(folder, f)


def of_a_function(path):
    folder = os.path.dirname(path)
    if os.path.basename(folder) in ("specs", "proofs"):
        return False
    return os.path.exists(os.path.join(folder, "Proof.antt")) or folder.endswith("/Proof")


def snake(name):
    if name[0].islower():
        name = re.sub(r"(?<=[a-z0-9])[A-Z]|[A-Z](?=[a-z])", lambda m: "_" + m.group(0).lower(), name)
    return name.replace("-", "_")


def declared(root):
    names = set()
    for path in texts(root, ".antt"):
        if of_a_function(path):
            continue
        with open(path, encoding="utf-8") as f:
            for line in f:
                if line.lstrip().startswith("--"):
                    continue
                m = IMPORT.match(line.rstrip("\n"))
                if m and m.group(2):
                    names |= {n.split(" as ")[1].strip() for n in m.group(2).split(",") if " as " in n}
                    continue
                m = DECLARED.match(line) or HEADED.match(line)
                if m and m.group(1) not in WORDS:
                    names.add(m.group(1))
    return names - NOT_OURS


def table(root):
    """Old name to new name, and the names whose new spelling a definition has."""
    names = declared(root)
    new = {n: snake(n) for n in names if snake(n) != n}
    kept = names - set(new)
    definitions = {s for n, s in new.items() if "-" not in n} | kept
    together = {n for n, s in new.items() if "-" in n and s in definitions}
    for n in together - PLAIN - set(LEMMA_IN):
        new[n] += "_lem"
    spelled = {}
    for n, s in new.items():
        if s in spelled and not (n in PLAIN or spelled[s] in PLAIN or n in LEMMA_IN or spelled[s] in LEMMA_IN):
            print(f"respell: {n} and {spelled[s]} fall together", file=sys.stderr)
        spelled[s] = n
    return new


def own(path, root):
    parts = path.split(".")
    return parts[0] == "Rattle" and len(parts) > 1 and os.path.isdir(os.path.join(root, "crates", parts[1]))


def respell_line(line, spell):
    """Each token outside quotes, by spell(token, follows a dot)."""
    parts = re.split(r'("[^"]*")', line)
    for i in range(0, len(parts), 2):
        parts[i] = TOKEN.sub(lambda m: spell(m.group(0), parts[i][: m.start()].endswith(".")), parts[i])
    return "".join(parts)


def respell(path, root, new):
    within = os.path.relpath(path, os.path.join(root, "crates"))
    crate = within.split("/")[0]
    table = dict(new)
    for word, crates in RESPELLED.items():
        if crate in crates:
            table[word] = word + "_lem"
    for word, places in LEMMA_IN.items():
        if any(within.startswith(p) for p in places):
            table[word] = snake(word) + "_lem"
    with open(path, encoding="utf-8") as f:
        lines = f.read().split("\n")
    brought = None
    if path.endswith(".antt") and of_a_function(path):
        brought = set()
        for line in lines:
            m = IMPORT.match(line)
            if m and m.group(2) and own(m.group(1), root) and not re.search(r"\.(Statement|Tie|Code)$", m.group(1)):
                brought |= {n.strip().split(" as ")[0] for n in m.group(2).split(",")}

    def spell(token, behind_a_dot):
        if brought is not None and token not in brought:
            return token
        if token in LEMMA_IN and behind_a_dot:
            return snake(token)
        return table.get(token, token)

    out = []
    for line in lines:
        m = IMPORT.match(line)
        foreign = m and not own(m.group(1), root)
        prose = re.match(r"\s*(--|//|#) ", line) and not re.match(r"# refused at: ", line)
        if foreign or re.match(r"file: ", line):
            out.append(line)
        elif prose:
            out.append(re.sub(r"`[^`]*`", lambda q: respell_line(q.group(0), spell), line))
        else:
            out.append(respell_line(line, spell))
    with open(path, "w", encoding="utf-8") as f:
        f.write("\n".join(out))


def main():
    root = os.getcwd()
    new = table(root)
    for path in texts(root, (".antt", ".rt", ".edit")):
        respell(path, root, new)
    print(f"respell: {len(new)} names")


if __name__ == "__main__":
    main()
