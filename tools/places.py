#!/usr/bin/env python3
"""Lists places in src/ that may be written in a plainer form, point by point.

    python3 tools/places.py             counts, of the working tree
    python3 tools/places.py COMMIT      counts, of a commit
    python3 tools/places.py -v [COMMIT] each place too

A place is where to look, and no verdict.
"""
import difflib
import re
import subprocess
import sys
from collections import defaultdict

FLAGS = [a for a in sys.argv[1:] if a.startswith("-")]
NAMES = [a for a in sys.argv[1:] if not a.startswith("-")]
COMMIT = NAMES[0] if NAMES else None


def git(*words):
    return subprocess.run(["git", *words], capture_output=True, text=True, check=True).stdout


def sources():
    if COMMIT:
        names = git("ls-tree", "-r", "--name-only", COMMIT, "crates").split()
    else:
        names = git("ls-files", "crates").split()
    for name in names:
        if "/src/" in name and name.endswith(".rt"):
            text = git("show", f"{COMMIT}:{name}") if COMMIT else open(name).read()
            yield name, text


TREE = list(sources())
FOUND = defaultdict(list)


def note(point, name, number, what):
    FOUND[point].append(f"{name}:{number}: {what.strip()[:110]}")


# A line with such a shape, unless it has one of these words too, is a candidate of this point.
LINES = [
    ("1 a fault as an Option", [r"-> Option<\w*Fault>"], []),
    (
        "1 a number that tells two kinds apart",
        [r"([<>=+-] 16_?777_?2\d\d|16_?777_?2\d\d [<>=+-])|const \w+: u32 = 16_?777_?2"],
        [r"^\s*(requires|ensures|ghost|/)", r"rt;", r"rules\["],
    ),
    ("1 a number for a kind", [r"\bkind: u32\b|\bkind == \d|\] == 1\b"], [r"rules\["]),
    ("1 a number for a refusal", [r"\(u8, usize\)|cause: u8|fn number\(|number: u8"], []),
    (
        "1 an arm that ?, map or the like has",
        [
            r"^\s*(None => (None|return None|0|Ok\(\(\)\)|Err\(.*)[,;]?$|Some\(\w+\) => (Some|Ok)\(.*\),$|Err\((\w+|_)\) => (return )?(Err\(.*|0|false|true|None|\{\})[,;]?$|Ok\((\w+|\(\))\) => (Ok\(\w*\(?\)?\)|\w+|\{\}),$|None => \{\}$|Some\(_\) => false,|return None;$)",
            r"\blet (Some|Ok)\(.*else \{$",
        ],
        [],
    ),
    ("3 a while", [r"^\s*while (?!let )"], []),
    ("3 a while let", [r"^\s*while let "], []),
    (
        "4 a conversion, a comparison or a printing with a name of its own",
        [r"^\s*(pub(\(\w+\))? )?(const )?fn (refusal|number|bytes|name|keyword|kind_text|kind_word|kind_of|term_of|code_of|of_layer|set_of|same_word|same_row|print_refusal)\b"],
        [],
    ),
    (
        "4 an arm that gives a word or a number of a variant",
        [r"^\s*\w+::\w+(\([^)]*\))? => b?\"", r"^\s*\w+::\w+ => \d+,"],
        [],
    ),
    ("7 a function pointer", [r"\bfn\((?!.*\bfn \w)"], []),
]


def bare(line):
    return line.split("//")[0]


class Function:
    def __init__(self, file, number, name, params, clauses, body):
        self.file, self.number, self.name = file, number, name
        # the parameters alone, with no bounds before them
        params = re.sub(r"^.*?fn \w+(<[^(]*?>)?\(", "", params)
        self.params, self.clauses, self.body = params, clauses, body

    def shape(self):
        words = re.findall(r"[A-Za-z_]\w*|\d[\w]*|\"[^\"]*\"|[^\s\w]", self.params + self.body)
        keep = {"if", "else", "match", "for", "in", "while", "let", "mut", "return", "loop", "break", "Some", "None", "Ok", "Err", "true", "false"}
        return [w if w in keep or not re.match(r"[A-Za-z_\d\"]", w) else "x" for w in words]


def functions(file, text):
    lines = text.split("\n")
    i = 0
    while i < len(lines):
        m = re.match(r"(\s*)(?:pub(?:\(\w+\))? )?fn (\w+)", lines[i])
        if not m or bare(lines[i]) != lines[i]:
            i += 1
            continue
        indent = len(m.group(1))
        start, head, clauses, body = i, [], [], []
        if lines[i].rstrip().endswith(";"):
            i += 1
            continue
        one_line = lines[i].rstrip().endswith("{") or lines[i].rstrip().endswith("}")
        head.append(lines[i])
        i += 1
        if not one_line:
            while i < len(lines) and lines[i].rstrip() not in (" " * indent + "{", " " * indent + "{}") and not lines[i].startswith(" " * indent + ") {"):
                if re.match(r"\s*(requires|ensures|ghost)\b", lines[i]) or clauses:
                    clauses.append(lines[i])
                else:
                    head.append(lines[i])
                if lines[i].rstrip().endswith(";") and not clauses:
                    break
                i += 1
            else:
                pass
        while i < len(lines) and lines[i].rstrip() not in (" " * indent + "}", " " * indent + "{}"):
            body.append(bare(lines[i]))
            i += 1
        yield Function(file, start + 1, m.group(2), " ".join(head), "\n".join(clauses), "\n".join(body))
        i += 1


ALL = [f for name, text in TREE for f in functions(name, text)]

for name, text in TREE:
    lines = text.split("\n")
    for number, line in enumerate(lines, 1):
        code = bare(line)
        for point, shapes, unless in LINES:
            if any(re.search(it, code) for it in shapes) and not any(re.search(it, code) for it in unless):
                note(point, name, number, line)
        m = re.match(r"(\s*)(?:'\w+: )?for (\w+) in (.*)\.\.(.*) \{", code)
        if m:
            index = m.group(2)
            body = []
            for later in lines[number:]:
                if later.startswith(m.group(1) + "}"):
                    break
                body.append(bare(later))
            if re.search(r"\[[^\]]*\b" + index + r"\b[^\]]*\]", "\n".join(body)):
                note("3 a for over an index", name, number, line)
            elif re.search(r"\b\w+ [-+]= 1;", "\n".join(body)):
                note("3 a for with a count beside it", name, number, line)
    for m in re.finditer(r"struct (\w+)[^{;]*\{([^}]*)\}", text):
        fields = re.findall(r"(\w+): ([^,]+),", re.sub(r"//[^\n]*", "", m.group(2)))
        number = text[: m.start()].count("\n") + 1
        for f, t in fields:
            if t.strip() == "bool":
                note("1 a flag in a struct", name, number, f"{m.group(1)}: {f}")
        counts = [f for f, t in fields if t.strip() in ("usize", "u32", "u16") and re.search(r"count|used|len|length", f)]
        buffers = [f for f, t in fields if re.search(r"\[[^\]]*\]", t)]
        number = text[: m.start()].count("\n") + 1
        if buffers and counts:
            note("6 a buffer with a length beside it", name, number, f"{m.group(1)}: {', '.join(buffers)} with {', '.join(counts)}")
        if len(buffers) > 1:
            note("6 arrays side by side", name, number, f"{m.group(1)}: {', '.join(buffers)}")
    for m in re.finditer(r"enum (\w+)[^{;]*\{((?:[^{}]|\{[^}]*\})*)\}", text):
        body = re.sub(r"//[^\n]*", "", m.group(2))
        units = re.findall(r"^\s*(\w+),", body, re.M)
        holders = re.findall(r"^\s*(\w+)\s*[\({]", body, re.M)
        number = text[: m.start()].count("\n") + 1
        if units and holders:
            note("1 an enum with an empty variant and a full one", name, number, f"{m.group(1)}: {', '.join(units)} and {', '.join(holders)}")

for f in ALL:
    m = re.search(r"\bmatch (\w+) \{", f.body)
    if m and re.search(r"\b" + m.group(1) + r": (bool|[A-Z]\w+)\b", f.params):
        arms = re.findall(r"=> (?:\{\s*)?(\w+)\(", f.body)
        if len(arms) >= 2:
            note("7 a switch that picks a call", f.file, f.number, f"{f.name} by {m.group(1)}")
    for b in re.findall(r"(\w+): bool", f.params):
        note("7 a switch that picks a call", f.file, f.number, f"{f.name} by {b}")

done = set()
shapes = [(f, f.shape()) for f in ALL]
for i, (f, a) in enumerate(shapes):
    if len(a) < 40 or not re.search(r"\w\(|\b(if|match|for|while)\b", f.body):
        continue
    for g, b in shapes[i + 1:]:
        if abs(len(a) - len(b)) * 8 > len(a) or len(b) < 40:
            continue
        matcher = difflib.SequenceMatcher(None, a, b, autojunk=False)
        if matcher.real_quick_ratio() > 0.93 and matcher.quick_ratio() > 0.93 and matcher.ratio() > 0.93:
            note("2 functions of one shape", f.file, f.number, f"{f.name} ~ {g.file}:{g.number} {g.name}")

clauses = defaultdict(list)
groups = defaultdict(set)
for f in ALL:
    crate = f.file.split("/")[1]
    for clause in re.findall(r"(?:requires|ensures)(?: \w+)? \{(.*)\}\s*$", f.clauses, re.M):
        clauses[(crate, re.sub(r"\s+", " ", clause).strip())].append(f)
    params = sorted(set(re.findall(r"(\w+): (?:&(?:mut )?)?[\w\[]", f.params)))
    for i in range(len(params)):
        for j in range(i + 1, len(params)):
            for k in range(j + 1, len(params)):
                groups[(crate, (params[i], params[j], params[k]))].add(f)
for (crate, clause), fs in sorted(clauses.items()):
    if len(fs) >= 3:
        note("5 a clause in three functions or more", fs[0].file, fs[0].number, f"{len(fs)}: {clause}")
bundles = defaultdict(list)
for (crate, group), fs in groups.items():
    if len(fs) >= 4:
        bundles[crate].append((set(group), set(fs)))
for crate in sorted(bundles):
    joined = []
    for group, fs in bundles[crate]:
        near = [b for b in joined if len(b[0] & group) >= 2]
        for b in near:
            joined.remove(b)
            group, fs = group | b[0], fs | b[1]
        joined.append((group, fs))
    for group, fs in joined:
        f = min(fs, key=lambda f: (f.file, f.number))
        note("5 parameters of which three travel together through four functions or more", f.file, f.number, f"{len(fs)}: {', '.join(sorted(group))}")
for f in ALL:
    count = len(re.findall(r"\w+: ", f.params))
    if count >= 6:
        note("5 a function with six parameters or more", f.file, f.number, f"{f.name}: {count}")

print(f"{len(TREE)} files, {sum(t.count(chr(10)) for _, t in TREE)} lines, {len(ALL)} functions with a body")
for point in sorted(FOUND):
    print(f"{len(FOUND[point]):4}  {point}")
    if "-v" in FLAGS:
        for place in FOUND[point]:
            print(f"        {place}")
