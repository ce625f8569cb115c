#!/usr/bin/env python3
"""Gives the definitions and lemmas of this repository the spelling of today's Rattle: words in snake case, types in camel case.

Run once at the top of the checkout, after the kit's own port script. It renames each name with hyphens that the repository itself declares, in the
.antt files and in the clauses of the .rt files: Four-words becomes FourWords, weight-from becomes weight_from. Names of the library and those that
the check makes for goals keep their hyphens, and comments, strings and code stay as they are. It says which names it leaves, and which new names
stand elsewhere already.
"""

import os
import re
import sys

NAME = re.compile(r"(?<![\w'·◌-])[^\W\d_][\w']*(?:-[\w'·]+)+(?![\w'-])")
WORD = re.compile(r"[^\W\d][\w'-]*")
DECLARED = re.compile(r"^ {0,6}(?:(?:pub|abbrev|unfoldable|record|data|ghost) +)*([^\s:(){}=λ.,\[\]]+)(?: +[({][^:]*(?::.*)?)?(?: *:|$)")
IMPORT = re.compile(r"^\s*(?:ghost )?use ([\w.·'-]+)\.\{([^}]*)\}")
# Own lemmas that would fall together with words of the library in their files.
APART = {"bit-and": "bit_at_and", "bit-xor": "bit_at_xor"}


def files(top):
    for folder, dirs, names in os.walk(os.path.join(top, "crates")):
        dirs[:] = sorted(d for d in dirs if d != "out")
        for name in sorted(names):
            if name.endswith((".rt", ".antt")):
                yield os.path.join(folder, name)


def pieces(path, text):
    """The text in pieces, each with whether it may be changed. A comment of an .antt file begins with two hyphens, of an .rt file with two slashes."""
    comment = r"(--(?=[ \n]).*)" if path.endswith(".antt") else r"(//.*|\"(?:[^\"\\\n]|\\.)*\")"
    for i, piece in enumerate(re.split(comment, text)):
        yield piece, i % 2 == 0


def respelled(name):
    if name in APART:
        return APART[name]
    parts = name.split("-")
    if name[0].isupper():
        return "".join(p[0].upper() + p[1:] for p in parts)
    return "_".join(parts)


def main(top):
    own = {c for c in os.listdir(os.path.join(top, "crates"))}
    texts = {}
    for path in files(top):
        with open(path, encoding="utf-8") as f:
            texts[path] = f.read()
    words, declared, foreign = set(), set(), set()
    for path, text in texts.items():
        code = "".join(piece for piece, may in pieces(path, text) if may)
        words.update(WORD.findall(code))
        for line in code.split("\n"):
            module = IMPORT.match(line)
            if module:
                ours = re.match(r"Rattle\.(\w+)\.(specs|proofs)\.", module.group(1) + ".")
                if not (ours and ours.group(1) in own) or ".declared" in module.group(1) or module.group(1).split(".")[-1] in ("Goals", "Given"):
                    foreign.update(n.split(" as ")[0].strip() for n in module.group(2).split(","))
                continue
            name = DECLARED.match(line)
            if name and path.endswith(".antt") and NAME.fullmatch(name.group(1)):
                declared.add(name.group(1))
        foreign.update(re.findall(r"\bgoal\.([\w'-]+)", code))
    left = sorted(declared & foreign)
    new = {n: respelled(n) for n in declared - foreign}
    for n, r in sorted(new.items()):
        if r in words:
            print(f"respell: {n}: {r} stands elsewhere")
    taken = {}
    for n, r in sorted(new.items()):
        if r in taken:
            print(f"respell: {n} and {taken[r]} fall together")
        taken[r] = n
    for path, text in texts.items():
        out = "".join(NAME.sub(lambda m: new.get(m.group(0), m.group(0)), p) if may else p for p, may in pieces(path, text))
        if out != text:
            with open(path, "w", encoding="utf-8") as f:
                f.write(out)
    print(f"respell: {len(new)} names; of the library or made for goals, left: {' '.join(left)}")
    return 0


if __name__ == "__main__":
    sys.exit(main(sys.argv[1] if len(sys.argv) > 1 else "."))
