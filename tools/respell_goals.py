#!/usr/bin/env python3
"""In the proofs of functions, gives names of the source their spelling back inside names that Rattle makes.

usage: python3 tools/respell_goals.py      at the top of the repository, once, after tools/respell.py

Older kits wrote next-key-key for the call of next_key in `let key`; this one writes next_key-key.
"""

import os
import re

from respell import COMMENT, HYPHENED, files, imports, is_answer, read

MADE = ["overflow_" + o for o in ("add", "sub", "mul", "shl", "shr", "cast", "step", "neg")] + [
    "nonzero_div", "nonzero_rem", "slice_bounds", "offset_bounds", "invariant_of", "in_ok", "in_err", "in_default", "type_inv",
]


def main():
    names = set(MADE)
    for path in files():
        if path.endswith(".rt"):
            text = re.sub(r"(?m)^\s*(ghost|ensures|requires)\b.*$", "", COMMENT.sub("", read(path)))
            names |= {w for w in re.findall(r"[a-z]\w*", text) if "_" in w.strip("_")}
    split = {tuple(n.strip("_").split("_")): n for n in names}
    longest = max(len(k) for k in split)
    count = 0
    for path in files():
        if not (path.endswith(".antt") and is_answer(path)):
            continue
        text = read(path)
        library = set()
        for own, module, imported in imports(text):
            if not own or module not in ("Goals", "Given"):
                library |= imported

        def turn(m):
            name = m.group(1)
            if name in library:
                return name
            parts, out, i = name.split("-"), [], 0
            while i < len(parts):
                for n in range(min(longest, len(parts) - i), 0, -1):
                    key = tuple(parts[i : i + n])
                    if n == 1 or key in split:
                        out.append(parts[i] if n == 1 else split[key])
                        i += n
                        break
            return "-".join(out)

        new = HYPHENED.sub(turn, text)
        if new != text:
            count += 1
            with open(path, "w", encoding="utf-8") as f:
                f.write(new)
    print(f"respell_goals: {count} files")


if __name__ == "__main__":
    main()
