#!/usr/bin/env python3
"""Lists, point by point, the places in crates/*/src that docs/DESIGN-PASS.md counts.

What it lists are candidates; the page says of each what was made of it or why it stays. Comments and tests are left
out. Usage: tools/design_counts.py [POINT]
"""
import collections
import pathlib
import re
import sys

ROOT = pathlib.Path(__file__).resolve().parent.parent
CLAUSE = re.compile(r"^\s*(requires|ensures)\b[^{]*\{(.*)\}\s*;?$")
PATTERNS = {
    "1 own enums": r"\benum \w+",
    "1 numbers for kinds or refusals": r"const \w+: u(8|16|32)\b|\b(side|weekday|mark|number): u(8|32)\b",
    "1 flags and absent values": r"-> (bool|Option<)",
    "3 loops": r"\bfor .* in .*\{$|\bwhile |\bloop \{",
    "4 conversions and order by hand": r"256 \*|\bas (u8|u16|u32|u64|usize)\b|<= \w+ && \w+ <=|\] ==|\] !=",
    "4 impls, copies and printing by hand": r"impl\b.* for |: self\.\w+,$|fn (named|plain|show_\w+)\b",
    "6 arrays, counts and tables": r"\b(count|len): (u8|usize)\b|\[[\w:]*; \w+\]|\bstatic ",
    "7 switches and tables of functions": r"\bmatch |\bdyn |: fn\(",
}


def lines():
    for path in sorted(ROOT.glob("crates/*/src/*.rt")):
        if "_tests" in str(path):
            continue
        for number, line in enumerate(path.read_text().split("\n"), 1):
            if line.startswith("#[cfg(test)]"):
                break
            if not line.lstrip().startswith("//"):
                yield f"{path.parts[-3]}/{path.name}:{number}", line


def show(title, found):
    if len(sys.argv) < 2 or title.startswith(sys.argv[1]):
        print(f"\n== {title}: {len(found)}")
        print("\n".join(found))


def functions():
    """Each function's name and its body as a shape: words of its own and numbers are only that."""
    name, body = None, []
    for place, line in lines():
        start = re.match(r"\s*(?:pub(?:\(crate\))? )?(?:const )?fn (\w+)", line)
        if start:
            if name:
                yield name, body
            name, body = f"{place} {start[1]}", []
        elif name and not re.match(r"\s*(requires|ensures|ghost)\b", line):
            shape = re.sub(r"\b(?!if|else|for|in|let|mut|match|return|while|loop|self|Ok|Err|Some|None)\w+", "_", line)
            body.append(shape.strip())
    if name:
        yield name, body


def twins():
    groups = collections.defaultdict(list)
    for name, body in functions():
        text = "\n".join(line for line in body if line not in ("", "{", "}", "{}"))
        if text:
            groups[text].append(name)
    return ["   ".join(names) for names in groups.values() if len(names) > 1]


def facts():
    """Facts that stand in the clauses of three functions or more: each part of a conjunction by itself."""
    count = collections.Counter()
    for _, line in lines():
        clause = CLAUSE.match(line)
        if clause:
            for part in set(re.split(r" × |\) ×| × \(", clause[2])):
                count[f"{clause[1]} {part.strip(' ()')}"] += 1
    return [f"{times} x {fact}" for fact, times in count.most_common() if times > 2]


for title, pattern in PATTERNS.items():
    show(title, [f"{place}: {line.strip()}" for place, line in lines() if re.search(pattern, line)])
show("2 functions of one shape", twins())
show("5 facts in three clauses or more", facts())
proofs = sorted(ROOT.glob("crates/*/proofs/**/Answers.antt"))
show("8 answers", [f"{sum(len(re.findall(r'^pub .* : goal', p.read_text(), re.M)) for p in proofs)} in {len(proofs)} files"])
