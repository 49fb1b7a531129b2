#!/usr/bin/env python3
"""Brings the names of this repository's own definitions and lemmas to the spelling of the Rattle kit 13f, in every crate.

usage: python3 tools/respell.py        at the top of the repository, once, right after the kit's port.py

Words are in snake case (leaf-list: leaf_list, boxAt: box_at), types are in camel case (Boxes-stand: BoxesStand).
Names that the library or Rattle makes stay, and so do functions and fields of src/, strings, inputs and outputs.
It says which names fall together with one that stood already.
"""

import os
import re

WORD = r"[\w']"
HYPHENED = re.compile(r"(?<![\w'◌-])([A-Za-z][\w']*(?:-[\w']+)+)(?![\w'◌-])")
CAMEL = re.compile(r"(?<![\w'◌-])([a-z]+[A-Z]\w*)(?![\w'◌-])")
COMMENT = re.compile(r"--[^\n]*|//[^\n]*")
IMPORT = re.compile(r"use ([\w.'+-]+)\.\{([^}]*)\}")


# These would fall together with a lemma.
ELSE = {"leafOf": "leaf_box_of", "cutAround": "cut_box_around"}


def files():
    for folder, dirs, names in os.walk("crates"):
        dirs[:] = sorted(d for d in dirs if d != "out")
        for name in sorted(names):
            if name.endswith((".rt", ".antt")):
                yield os.path.join(folder, name)


def is_answer(path):
    """A file of a function's own proof, in which Rattle's own names stand beside ours."""
    parts = path.split(os.sep)
    return parts[2] == "proofs" and len(parts) > 4


def read(path):
    with open(path, encoding="utf-8") as f:
        return f.read()


def imports(text):
    """Each import of a text: is it from a crate of this repository, its module, and the names."""
    crates = set(os.listdir("crates"))
    for m in IMPORT.finditer(text):
        parts = m.group(1).split(".")
        own = parts[0] == "Rattle" and len(parts) > 1 and parts[1] in crates
        yield own, parts[-1], {n.strip().split(" as ")[0] for n in m.group(2).split(",")}


def spelled(name):
    if name in ELSE:
        return ELSE[name]
    name = name.replace("getD", "get_or")
    if name[0].isupper():
        head, *rest = name.split("-")
        return head + "".join(w[:1].upper() + w[1:] for w in rest)
    name = re.sub(r"(?<=[a-z])([A-Z])(?=[a-z])", lambda m: "_" + m.group(1).lower(), name)
    return name.replace("-", "_")


def main():
    library, made, ours, plain = set(), set(), set(), set()
    texts = {p: read(p) for p in files()}
    for path, text in texts.items():
        bare = COMMENT.sub("", text)
        for own, module, names in imports(bare):
            if not own:
                library |= names
            elif module in ("Goals", "Given"):
                made |= names
        plain |= set(re.findall(r"[A-Za-z][\w']*", bare))
        if path.endswith(".rt"):
            # clauses stand in braces after ensures, requires and ghost
            for m in re.finditer(r"(?:ensures|requires|ghost|decreases|invariant)\b([^\n]*)", bare):
                ours |= set(HYPHENED.findall(m.group(1)))
        elif not is_answer(path):
            ours |= set(HYPHENED.findall(bare)) | set(CAMEL.findall(bare))
        else:
            for m in re.finditer(r"(?m)^\s*([a-z][\w'-]*) : (?!goal\.)", bare):
                ours |= set(HYPHENED.findall(m.group(1)))
    ours = {n for n in ours - library - made if spelled(n) != n}
    for name in sorted(ours):
        if spelled(name) in plain:
            print("stood already:", name, "->", spelled(name))
    turned = {}
    for name in sorted(ours):
        turned.setdefault(spelled(name), []).append(name)
    for new, old in turned.items():
        if len(old) > 1:
            print("fall together:", old, "->", new)
    count = 0
    for path, text in texts.items():
        local = set()
        answer = is_answer(path)
        if answer:
            for m in re.finditer(r"use [\w.'+-]+\.(?:Goals|Given)\.\{([^}]*)\}", text):
                local |= {n.strip() for n in m.group(1).split(",")}

        def turn(m):
            name = m.group(1)
            if name not in ours or name in local:
                return m.group(0)
            before = text[: m.start()]
            # a step of the function's own proof, as c.loop-i, w.then-x or goal.returns-f
            if answer and re.search(r"(?<![\w'.])(c|w|l|u|v|goal|given)\.$", before):
                return m.group(0)
            if answer and re.search(r"(?m)^\s*(pub |abbrev pub )?$", before[before.rfind("\n") + 1 :] or "") and re.match(r"[^\n]* : goal\.", text[m.end() :]):
                return m.group(0)
            return spelled(name)

        new = HYPHENED.sub(turn, text)
        new = CAMEL.sub(lambda m: spelled(m.group(1)) if m.group(1) in ours else m.group(0), new)
        if new != text:
            count += 1
            with open(path, "w", encoding="utf-8") as f:
                f.write(new)
    print(f"respell: {len(ours)} names, {count} files")


if __name__ == "__main__":
    main()
