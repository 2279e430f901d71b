#!/usr/bin/env python3
"""In a function's proof files, writes the names of goals, steps and arms as today's kit does: a name of the source keeps
its underscores, and a word of the kit's is one word. Names that the repository declares itself stay.

usage: python3 tools/goal_names.py CRATE..
"""
import os
import re
import sys

sys.path.insert(0, os.path.dirname(os.path.realpath(__file__)))
import respell

KIT = ["in-default", "in-err", "in-ok", "overflow-add", "overflow-sub", "overflow-mul", "overflow-shl", "overflow-shr", "overflow-cast", "overflow-step", "offset-bounds", "slice-bounds", "nonzero-div", "nonzero-rem", "invariant-of", "from-residual", "type-inv", "as-slice", "as-mut-slice", "from-utf8"]


def identifiers(crate):
    out = set()
    for c in os.listdir("crates"):
        for folder, _, names in os.walk(os.path.join("crates", c, "src")):
            for n in names:
                if n.endswith(".rt"):
                    with open(os.path.join(folder, n), encoding="utf-8") as f:
                        text = re.sub(r"//.*", "", f.read())
                    found = set(re.findall(r"\b[A-Za-z]\w*_\w+\b", text))
                    if c == crate:
                        out |= found
                    else:
                        out |= set(re.findall(r"fn ([a-z]\w*_\w+)", text))
    return out


def main(names):
    own = set(respell.declared("."))
    for crate in names:
        words = sorted({w.replace("_", "-"): w for w in identifiers(crate)}.items(), key=lambda p: -len(p[0]))
        words = [(k, k.replace("-", "_")) for k in sorted(KIT, key=len, reverse=True)] + words

        def turn(token):
            if "-" not in token or token in own:
                return token
            for a, b in words:
                token = re.sub(r"(?<![\w])" + re.escape(a) + r"(?![\w])", b, token)
            return token

        for folder, _, files in os.walk(os.path.join("crates", crate, "proofs")):
            for n in sorted(files):
                path = os.path.join(folder, n)
                if not n.endswith(".antt") or not respell.in_function_folder(path):
                    continue
                with open(path, encoding="utf-8") as f:
                    text = f.read()
                lines = []
                for line in text.split("\n"):
                    if line.startswith("use ") and ".Goals" not in line and ".Given" not in line:
                        lines.append(line)
                    else:
                        lines.append(respell.TOKEN.sub(lambda m: turn(m.group(0)), line))
                new = "\n".join(lines)
                if new != text:
                    with open(path, "w", encoding="utf-8") as f:
                        f.write(new)
                    print(path)


if __name__ == "__main__":
    main(sys.argv[1:])
