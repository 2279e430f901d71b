#!/usr/bin/env python3
"""Brings the repository's own definitions, lemmas, fields and constructors to one spelling: types and facts in upper
camel case, everything else in snake case, with a dash left only where a lemma's name begins with the name of a
definition. Run once, at the top, after the kit's own script; it goes by text, and skips comments and strings.

usage: python3 tools/respell.py [--dry]
"""
import os
import re
import sys

# Names that would fall together with another one, or that say an older name of the library.
SPECIAL = {
    "after-rows": "words_after_rows",
    "count-of": "count_of-some",
    "in-line": "lines_at-in_line",
    "is-variable": "variable_is",
    "kind-of": "kind_key_is",
    "kind-word": "kind_of-kind_word",
    "left-count": "left_count_fits",
    "pair-count": "pair_count_fits",
    "pair-at": "pair_count_at",
    "pair-in": "pair_place_in",
    "rules-at": "join_rules-well",
    "rules-end": "rules_ending",
    "rowCount": "count_of_rows",
    "getD-member": "get_or-member",
    "Finished-by": "FinishedBy",
    "leastOf": "least_of",
    "eachIs": "each_is",
}
TOKEN = re.compile(r"[^\s(){}\[\].,;:λ→«»\"⌜⌝|]+")
DECL = re.compile(r"^(\s*)((?:abbrev|unfoldable|pub|record|data|axiom)\s+)*([^\s(){}.,;:=λ→«»\"]+)((?:\s+(?:\([^()]*(?:\([^()]*(?:\([^()]*\)[^()]*)*\)[^()]*)*\)|\{[^{}]*(?:\{[^{}]*\}[^{}]*)*\}))*)\s+:\s+(.*)$")
WORDS = {"use", "pub", "mod", "module", "where", "let", "in", "elim", "abbrev", "record", "data", "unfolding", "ruleset"}


def files(root, ends):
    for folder, dirs, names in os.walk(os.path.join(root, "crates")):
        dirs[:] = sorted(d for d in dirs if not (d == "out" and os.path.dirname(folder) == os.path.join(root, "crates")))
        for n in sorted(names):
            if n.endswith(ends):
                yield os.path.join(folder, n)


def in_function_folder(path):
    """proofs/F/Answers.antt and the like, where names are mostly those of goals."""
    parts = path.split(os.sep)
    return "proofs" in parts and parts.index("proofs") < len(parts) - 2


def declared(root):
    """name -> the set of 'type', 'def', 'lemma', 'field'."""
    out = {}
    for path in files(root, ".antt"):
        spec = os.sep + "specs" + os.sep in path
        scope = None
        with open(path, encoding="utf-8") as f:
            lines = f.read().split("\n")
        for i, line in enumerate(lines):
            if line.strip().startswith("--"):
                continue
            m = DECL.match(line)
            if not m:
                continue
            indent, name, rest = len(m.group(1)), m.group(3), m.group(5)
            head = line.split(name)[0]
            if name in WORDS or rest.startswith("goal.") or re.fullmatch(r"[\W\d_]+", name):
                continue
            if indent == 0:
                scope = "record" if re.search(r"\b(record|data)\b", head) else None
            if scope == "record" and indent > 0:
                kind = "field"
            elif name[0].isupper() or re.search(r"\b(record|data)\b", head):
                kind = "type"
            elif spec or re.search(r"\b(abbrev|unfoldable)\b", head):
                kind = "def"
            else:
                kind = "lemma"
            out.setdefault(name, set()).add(kind)
    return out


def snake(name):
    """termOf -> term_of, count-E -> count_e"""
    name = re.sub(r"(?<=[a-z0-9'])([A-Z])", r"_\1", name)
    return name.replace("-", "_").lower()


def camel(name):
    return "".join(p[:1].upper() + p[1:] for p in re.split(r"[-_]", name))


def mapping(names, definitions):
    out = {}
    for name, kinds in names.items():
        if name in SPECIAL:
            out[name] = SPECIAL[name]
        elif name[0].isupper() and "type" not in kinds and "field" in kinds:
            continue  # a constructor
        elif name[0].isupper():
            # a fact, or a lemma that begins with one
            new = camel(name)
            out[name] = new
        elif "-" in name and kinds <= {"lemma"}:
            head, tail = name.split("-", 1)
            stem = snake(head)
            out[name] = (stem + "-" + snake(tail)) if (stem in definitions or head in definitions) else snake(name)
        else:
            out[name] = snake(name)
    out.update(SPECIAL)
    return {a: b for a, b in out.items() if a != b}


def turn(text, table, rust):
    """Replaces tokens outside comments and strings."""
    comment = "//" if rust else "--"
    out = []
    for line in text.split("\n"):
        parts = re.split(r'("(?:[^"\\]|\\.)*")', line)
        done, rest = [], False
        for k, p in enumerate(parts):
            if rest or k % 2 == 1:
                done.append(p)
                continue
            at = p.find(comment) if rust else (0 if p.lstrip().startswith("--") else p.find(" -- "))
            code, tail = (p, "") if at < 0 else (p[:at], p[at:])
            rest = at >= 0
            done.append(TOKEN.sub(lambda m: table.get(m.group(0), m.group(0)), code) + tail)
        out.append("".join(done))
    return "\n".join(out)


def main(argv):
    root = "."
    names = declared(root)
    definitions = {n for n, k in names.items() if "def" in k} | {"length", "take", "drop", "map", "get_or", "append", "slice_get", "slice_index", "filter", "sum", "cond", "eqb", "ltb", "min", "max", "replicate", "decimal"}
    definitions |= {snake(n) for n in definitions}
    table = mapping(names, definitions)
    everything = set()
    texts = {}
    for path in files(root, (".antt", ".rt")):
        with open(path, encoding="utf-8") as f:
            texts[path] = f.read()
        everything |= set(TOKEN.findall(texts[path]))
    back = {}
    for a, b in sorted(table.items()):
        back.setdefault(b, []).append(a)
    bad = 0
    for b, olds in sorted(back.items()):
        if len(olds) > 1 or (b in everything and b not in table):
            print("falls together:", b, "from", olds, "(stands already)" if b in everything else "")
            bad += 1
    if "--dry" in argv:
        for a, b in sorted(table.items()):
            print(a, "->", b, sorted(names.get(a, ())))
        return 1 if bad else 0
    for path, text in texts.items():
        new = turn(text, table, path.endswith(".rt"))
        if new != text:
            with open(path, "w", encoding="utf-8") as f:
                f.write(new)
    print(len(table), "names")
    return 0


if __name__ == "__main__":
    raise SystemExit(main(sys.argv[1:]))
