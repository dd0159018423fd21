#!/usr/bin/env python3
"""Respells the repository's own definitions and lemmas: words in snake case, facts and types in camel case.

usage: python3 tools/respell.py      at the top of the repository, once, after the kit's port.py

A name counts as the repository's own where a file of specs/ or proofs/ declares it, or imports something as it, and it has a
dash. Functions of src/, text in quotes and names that the prover makes (those of goals and of steps, which follow `c.`, `w.`,
`l.`, `g.` or `goal.`) stay.
"""

import os
import re
import sys

# Names that would fall together with another one.
CHOSEN = {"Power-lost": "LosesPower"}
DECLARED = re.compile(r"^\s*(?:(?:abbrev|unfoldable|pub|data|record)\s+)*([A-Za-z][\w'-]*)((?:\s*[({][^)}]*[)}])*)\s+:\s(.*)")
WORD = re.compile(r"[^\s(){}\[\];,`\"“”|⌜⌝]+")
STEPS = ("c", "w", "l", "g", "goal")


def files(root, endings):
    for folder, dirs, names in os.walk(root):
        dirs[:] = sorted(d for d in dirs if d not in ("out", "target", ".git", "tools"))
        for name in sorted(names):
            if name.endswith(endings):
                yield os.path.join(folder, name)


def own_names():
    found = set()
    for path in files("crates", (".antt",)):
        with open(path, encoding="utf-8") as f:
            for line in f:
                found.update(re.findall(r" as ([a-z]\w*-[\w-]+)", line))
                m = DECLARED.match(line)
                if m and "-" in m.group(1) and not m.group(3).startswith("goal."):
                    found.add(m.group(1))
    return found


def respelled(name):
    if name in CHOSEN:
        return CHOSEN[name]
    if name[0].isupper():
        return "".join(part[:1].upper() + part[1:] for part in name.split("-"))
    return name.replace("-", "_")


def turn_word(word, names):
    parts = word.split(".")
    made = parts[0] in STEPS
    for i, part in enumerate(parts):
        core = part.strip("?!:")
        if core in names and not (made and i > 0):
            parts[i] = part.replace(core, names[core])
    return ".".join(parts)


def turn_text(text, names):
    return WORD.sub(lambda m: turn_word(m.group(0), names), text)


def turn_rust(text, names):
    """Only comments and lines outside quotes can hold such a name."""
    out = []
    for line in text.split("\n"):
        pieces = line.split('"')
        pieces[::2] = [turn_text(p, names) for p in pieces[::2]]
        out.append('"'.join(pieces))
    return "\n".join(out)


def lent(text):
    """The names that a file takes from a crate that is not this repository's."""
    found = set()
    for crate, names in re.findall(r"(?m)^(?:ghost )?use Rattle\.(\w+)[^\n{]*\{([^}\n]*)\}", text):
        if not os.path.isdir(os.path.join("crates", crate)):
            found.update(n.strip() for n in names.split(","))
    return found


def main():
    all_names = {n: respelled(n) for n in own_names()}
    if len(set(all_names.values())) < len(all_names):
        sys.exit("respell: two names fall together")
    count = 0
    for path in [*files("crates", (".antt", ".rt")), *files("docs", (".md",)), "README.md"]:
        with open(path, encoding="utf-8") as f:
            old = f.read()
        taken = lent(old)
        names = {n: to for n, to in all_names.items() if n not in taken}
        if path.endswith(".rt"):
            new = turn_rust(old, names)
        elif path.endswith(".md"):
            new = re.sub(r"`[^`\n]+`", lambda m: turn_text(m.group(0), names), old)
        else:
            new = turn_text(old, names)
        if new != old:
            count += 1
            with open(path, "w", encoding="utf-8") as f:
                f.write(new)
    print(f"respell: {len(all_names)} names in {count} files")


if __name__ == "__main__":
    main()
