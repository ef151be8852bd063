#!/usr/bin/env python3
"""design_count.py [TOP]: counts, over the sources of TOP (this checkout without it), the places that docs/DESIGN-PASS.md speaks of, point by point,
and with --list names them."""
import collections
import pathlib
import re
import sys

arguments = [a for a in sys.argv[1:] if a != "--list"]
listed = "--list" in sys.argv
top = pathlib.Path(arguments[0]) if arguments else pathlib.Path(__file__).resolve().parent.parent
sources = {f.parts[-3]: f.read_text() for f in sorted(top.glob("crates/*/src/*.rt"))}
code = {name: re.sub(r"//[^\n]*", "", text) for name, text in sources.items()}


def tell(what, places):
    print(f"{len(places):5}  {what}")
    if listed:
        for place in places:
            print("         ", place)


def items(kind):
    """The types of a kind: crate, name, body."""
    return [(c, m[1], m[2]) for c, text in code.items() for m in re.finditer(rf"pub {kind} (\w+) \{{(.*?)\n\}}", text, re.S)]


def functions():
    """Every function: crate, name, parameters, clauses, body."""
    for crate, text in code.items():
        for m in re.finditer(r"^((?: {4})?)(?:pub )?(?:extern \"C\" )?fn (\w+)(?:<[^(]*>)?\(.*?^\1\}$", text, re.S | re.M):
            head, _, body = m[0].partition("\n{\n")
            if not body:
                head, _, body = m[0].partition(" {\n")
            lines = head.split("\n")
            clauses = [line for line in lines if re.match(r"\s+(requires|ensures)\b", line)]
            front = " ".join(" ".join(line for line in lines if line not in clauses).split())
            inside = front[front.index("(") + 1 :]
            yield crate, m[2], inside[: inside.rindex(")")] if ")" in inside else inside, (inside, clauses), body


every = list(functions())

print("1. Own enums of the shape of Option or Result, flags with a value beside them, numbers for kinds")
tell("enums with a variant `Refused(Refusal)` or an empty one for no value", [f"{c}::{n}" for c, n, b in items("enum") if re.search(r"Refused\(|\bNothing\b|\bNone\b", b)])
tell("structs with a field `verdict` beside the value", [f"{c}::{n}" for c, n, b in items("struct") if "verdict:" in b])
tell("structs with a flag `some` beside the value", [f"{c}::{n}" for c, n, b in items("struct") if re.search(r"\bsome: bool", b)])
tell("`match` or `let else` that only passes a refusal on", [f"{c}::{f}" for c, f, _, _, b in every for _ in re.findall(r"(?:Refused|Err)\((\w+)\) => (?:\{\s*return |return )?\w*(?:::)?(?:Refused|Err)\(\1\)|let \w+(?:::\w+)?(?:\([^)]*\))? = (\w+) else \{\s*return \2;", b)])
tell("functions that give a number for a kind", [f"{c}::{f}" for c, f, _, s, _ in every if re.search(r"_code$", f) and "-> u64" in s[0]])

print("2. Functions that differ only in a type, a size or a constant")


def shape(name, text):
    text = re.sub(rf"\b{name}\b", "F", text)
    text = re.sub(r"\b(?:u8|u16|u32|u64|usize|i64|f64)\b", "T", text)
    return re.sub(r"\b(?:0x[0-9a-f_]+|\d[\d_.]*)\b", "N", " ".join(text.split()))


alike = collections.defaultdict(list)
for c, f, p, s, b in every:
    if b.count("\n") > 2:
        alike[shape(f, p + "|" + b)].append(f"{c}::{f}")
tell("groups of such functions", [" = ".join(g) for g in alike.values() if len(g) > 1])

print("3. Loops")
loops = [(c, f, m) for c, f, _, _, b in every for m in re.finditer(r"\bwhile ([^{]*)\{((?:[^{}]|\{(?:[^{}]|\{(?:[^{}]|\{[^{}]*\})*\})*\})*)\}", b)]
counting = [(c, f) for c, f, m in loops if any(re.search(rf"\b{v} (?:\+|-)= 1;|\b{v} = {v} (?:\+|-) 1;", m[2]) for v in re.findall(r"[\w.]+", m[1]))]
tell("`while` and `loop`", [f"{c}::{f}" for c, f, _, _, b in every for _ in re.findall(r"\b(?:while\b[^{]*|loop) \{", b)])
tell("of these, loops that count an index by hand", [f"{c}::{f}" for c, f in counting])
tell("`for`", [f"{c}::{f}" for c, f, _, _, b in every for _ in re.findall(r"\bfor \w+", b)])

print("4. Equality, order, copying, conversion and printing by hand")
tell("functions that map the variants of an enum to numbers, or numbers to variants", [f"{c}::{f}" for c, f, _, s, b in every if re.search(r"=> \d+,", b) or re.search(r"== \d+ \{\s*return (?:Ok\()?\w+::\w+(?:\(|;)", b)])
tell("functions that copy a slice element by element", [f"{c}::{f}" for c, f, _, _, b in every if re.search(r"(\w+)\[([^\]]*)\] = \w+\[[^\]]*\];\s*\}\s*\}?\s*$|(\w+)\[([^\]]*)\] = \w+\[[^\]]*\];\s*\w+ \+= 1;\s*\}", b)])

print("5. Facts that stand in three contracts or more, parameters that travel together")
facts = collections.defaultdict(set)
groups = collections.defaultdict(set)
for c, f, p, s, _ in every:
    for clause in s[1]:
        inner = re.match(r"\s+requires(?: \w+)? \{(.*)\}", clause)
        for fact in re.split(r" × ", inner[1].strip()) if inner else []:
            facts[fact.strip(" ()")].add(f"{c}::{f}")
    words = [w.strip() for w in p.split(", ") if w.strip()]
    for i in range(len(words) - 2):
        groups[", ".join(words[i : i + 3]).rstrip(",")].add(f"{c}::{f}")
tell("facts in the `requires` of three functions or more", [f"{k}: {len(v)}" for k, v in sorted(facts.items(), key=lambda x: -len(x[1])) if len(v) > 2])
tell("three parameters in a row that three functions or more share", [f"{k}: {len(v)}" for k, v in sorted(groups.items(), key=lambda x: -len(x[1])) if len(v) > 2])

print("6. Buffers with a length beside, parallel arrays, lists searched by hand, arenas")
tell("structs of an array and a count", [f"{c}::{n}" for c, n, b in items("struct") if re.search(r"\[[^\]]+; \d+\]", b) and "usize" in b])
tell("functions with a slice and, right behind it, how much of it counts", [f"{c}::{f}" for c, f, p, _, _ in every if re.search(r"\w+: &(?:mut )?\[\w+\], (?:n|m|f|len|count|faces|room|limit): usize", p)])

print("7. Switches on which step to run")
tell("functions with a `bool` or an enum that says which step to run", [f"{c}::{f}" for c, f, p, _, _ in every if re.search(r"\b(?:given|strict|pick|operation|op|first): (?:bool|Pick|Operation)\b", p)])

print("8. Proofs")
answers = sorted(top.glob("crates/*/proofs/*/Answers.antt"))
tell("functions with answers", [f.parts[-4] + "::" + f.parts[-2] for f in answers])
goals = [g for f in answers for g in re.findall(r"^pub ([\w-]+) : goal\.", f.read_text(), re.M)]
print(f"{len(goals):5}  answers")
