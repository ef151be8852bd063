#!/usr/bin/env python3
"""design_changes.py [--table]: what differs between the commit that docs/DESIGN-PASS.md begins with and this checkout, beyond the names of that
page's table of enums: functions, types, definitions and theorems of crates/, those that are gone too. --table writes the page's last part, old and
new of what stands."""
import collections
import io
import pathlib
import re
import subprocess
import sys
import tarfile

root = pathlib.Path(__file__).resolve().parent.parent
commit = (root / "docs" / "DESIGN-PASS.md").read_text().split("\n")[0].rsplit(" ", 1)[1]

# the page's first table: a type, its owner, what stands for it in the code and in the specs, and what for its variants
GONE = {
    "Verdict": ("refusal", "Result<(), Refusal>", "Outcome Unit", {"Fine": "Ok tt"}),
    "Framed": ("space", "Result<Frame, Refusal>", "Outcome Frame", {"Made": "Ok"}),
    "Planed": ("space", "Result<Plane, Refusal>", "Outcome Plane", {"Made": "Ok"}),
    "Counted": ("indexed", "Result<usize, Refusal>", "Outcome ℕ", {"Made": "Ok"}),
    "Count": ("hull", "Result<usize, Refusal>", "Outcome ℕ", {"Points": "Ok"}),
    "Below": ("solids", "Result<bool, Refusal>", "Outcome Bool", {"Told": "Ok"}),
    "Shadow": ("outline", "Result<Projected, Refusal>", "Outcome Projected", {"Made": "Ok"}),
    "Shifted": ("shift", "Result<Point3, Refusal>", "Outcome Point3", {"At": "Ok"}),
    "Operated": ("job", "Result<Operation, Refusal>", "Outcome Operation", {"Made": "Ok"}),
    "Spanned": ("job", "Result<Span, Refusal>", "Outcome Span", {"Made": "Ok"}),
    "Laid": ("job", "Result<Layout, Refusal>", "Outcome Layout", {"Made": "Ok"}),
    "CellLaid": ("job", "Result<CellLayout, Refusal>", "Outcome CellLayout", {"Made": "Ok"}),
    "FacetLaid": ("job", "Result<FacetLayout, Refusal>", "Outcome FacetLayout", {"Made": "Ok"}),
    "Incidence": ("incidence", "Result<Option<Interval>, Refusal>", "Outcome Option Interval", {"Passed": "Ok None", "Inside": "Ok Some"}),
    "Inverse": ("interval", "Option<Interval>", "Option Interval", {"Value": "Some", "Nothing": "None"}),
}
KEPT = {
    "Closeness": ("space", "Near Apart"),
    "Side": ("side", "Positive Negative Zero"),
    "Turn": ("turns", "Positive Negative Zero"),
    "Sensed": ("volume", "Outward Inward"),
    "Block": ("ears", "Clear Blocked"),
    "Found": ("ears", "Ear Straight Nothing"),
    "Meet": ("edge", "Keep Drop Touch Cut"),
    "Clipped": ("clip", "Nothing Part"),
}
SAME = {"framed": "space", "planed": "space", "counted": "indexed", "below": "solids", "shadowed": "outline", "shifted_to": "shift", "operated": "job", "spanned": "job", "laid": "job", "cell_laid": "job", "facet_laid": "job"}
WORD = r"(?<![\w'\-.])%s(?![\w'\-])"


def plain(text):
    """A text without brackets and without the commas that end a list."""
    return re.sub(r" ,(?= (?:->|\}|requires|ensures|$))| ,$", "", " ".join(re.sub(r"[()]", " ", text).replace(",", " , ").split()))


def sources(tree):
    """Crate → its files, by their paths in the crate."""
    found = collections.defaultdict(dict)
    for path, text in tree.items():
        parts = path.split("/")
        if parts[0] == "crates" and len(parts) > 3 and parts[2] in ("src", "specs", "proofs") and not (parts[2] == "proofs" and len(parts) > 4):
            found[parts[1]]["/".join(parts[2:])] = text
    return found


def functions(files):
    found = {}
    for path, text in files.items():
        if path.startswith("src/"):
            for m in re.finditer(r"^(pub )?(?:extern \"C\" )?fn (\w+)(.*?)(?:\n\{\n| \{\n)", re.sub(r"//[^\n]*", "", text), re.S | re.M):
                found[m[2]] = (bool(m[1]), "fn " + m[2] + m[3])
    return found


def types(files):
    return {m[2]: m[1] for path, text in files.items() if path.startswith("src/") for m in re.finditer(r"^(pub (?:struct|enum) (\w+).*?^\})", re.sub(r"//[^\n]*", "", text), re.S | re.M)}


def declared(files):
    """Of each declaration at the top of a file, or public: its kind and its words; of a definition its equations too."""
    found = {}
    for path, text in files.items():
        if not path.endswith(".antt") or path.endswith("Lib.antt"):
            continue
        lines = [re.sub(r"(^|\s)--( .*)?$", "", line).rstrip() for line in text.split("\n")]
        depth = [len(line) - len(line.lstrip()) for line in lines]
        rooms, at = [], 0
        while at < len(lines):
            line = lines[at]
            rooms = [r for r in rooms if r[0] < depth[at]] if line else rooms
            if re.match(r"\s*module _ ", line):
                last = at
                while not lines[last].endswith(" where"):
                    last += 1
                    if last == len(lines) or depth[last] <= depth[at]:
                        sys.exit(f"{path}:{at + 1}: a module's head without its where")
                rooms.append((depth[at], " ".join(l.strip() for l in lines[at : last + 1])[len("module _ ") : -len(" where")]))
                at = last + 1
                continue
            m = re.match(r"(\s*)(unfoldable |abbrev )?(pub )?(record |data )?([^\s:(){}]+)((?: \{[^}]*\})?(?: \((?:[^()]|\((?:[^()]|\([^()]*\))*\))*\))*(?: \{[^}]*\})*) : ", line)
            if not m or m[5] in ("where", "let", "in", "λ", "|") or (m[1] and not m[3]):
                at += 1
                continue
            kind, words, more = (m[4] or m[2] or "theorem").strip(), [line], at + 1
            while more < len(lines) and lines[more] and depth[more] > depth[at]:
                words.append(lines[more])
                more += 1
            while kind in ("unfoldable", "abbrev") and more < len(lines) and lines[more] and (depth[more] > depth[at] or re.match(rf"\s*(unfolding|{re.escape(m[5])})(\s|$)", lines[more])):
                words.append(" ; " + lines[more])
                more += 1
            found[m[5], path] = (kind, " ".join([" ".join(r[1] for r in rooms) + (" ⊢" if rooms else ""), *words]))
            at = more if kind in ("record", "data") else at + 1
    return found


def aliases(text, crate):
    """What the names of a file mean in today's words."""
    means = {}
    for m in re.finditer(r"^(?:ghost )?use Rattle\.(\w+)\.specs\.declared\.(\w+)(\.TheVariants)?(?: as (\w+)|\.\{([^}\n]*)\})", text, re.M):
        owner, name, variants, alias, items = m.groups()
        gone, kept = GONE.get(name), KEPT.get(name)
        if not (gone and gone[0] == owner or kept and kept[0] == owner):
            continue
        if not variants:
            means[name] = gone[2] if gone else "Outcome " + name
            continue
        table = {**gone[3]} if gone else {v: "Ok " + v for v in kept[1].split()}
        table["Refused"] = "Err"
        for v, new in table.items():
            if alias:
                means[f"{alias}.{v}"] = new if gone or v == "Refused" else f"Ok {alias}.{v}"
            elif v in [i.strip() for i in items.split(",")]:
                means[v] = new
    if "refusal.specs.Outcome" in text or crate == "refusal":
        means.update({"ok": "Ok", "refused": "Err"})
    return means


def renamed(text, means, where, crate):
    """Words of a file, whose text is `where`, in today's names; what the definitions of SAME say of an answer is the answer itself."""
    if means:
        text = re.sub(WORD % ("(" + "|".join(map(re.escape, sorted(means, key=len, reverse=True))) + ")"), lambda m: means[m[1]], text)
    same = [w for w, owner in SAME.items() if re.search(rf"use Rattle\.{owner}\.specs\.\w+\.\{{[^}}\n]*\b{w}\b", where) or owner == crate and f" pub {w} :" in where]
    return re.sub(r"(?<![\w'\-.])(?:ap )?(?:" + "|".join(same) + r") (?=[\w(])(?!: )", "", text) if same else text


def coded(text, crate):
    """A head of the code in today's words: its types, and in its clauses the two names of Outcome."""
    text, mark, clauses = re.match(r"(.*?)(\n +(?:requires|ensures)|$)(.*)", text, re.S).groups()
    for name, (owner, new, _, _) in GONE.items():
        text = re.sub(rf"(?<![\w:])(?:{owner}::)?{name}\b(?!::)", new, text)
    for name in KEPT:
        if not (name == "Turn" and crate in ("exact", "hull", "numbered", "leaves")) and not (name == "Found" and crate == "cavities"):
            text = re.sub(rf"(?<![\w:<]){name}\b(?!::)", f"Result<{name}, Refusal>", text)
    return text + mark + re.sub(WORD % "ok", "Ok", re.sub(WORD % "refused", "Err", clauses))


archive = subprocess.run(["git", "archive", commit, "crates"], cwd=root, check=True, capture_output=True).stdout
with tarfile.open(fileobj=io.BytesIO(archive)) as tar:
    before = sources({m.name: tar.extractfile(m).read().decode() for m in tar.getmembers() if m.isfile() and m.name.endswith((".rt", ".antt"))})
after = sources({str(f.relative_to(root)): f.read_text() for pattern in ("src/*.rt", "specs/*.antt", "proofs/*.antt") for f in root.glob("crates/*/" + pattern)})

count = collections.Counter()
for crate in sorted(before):
    rows, old, new = [], before[crate], after.get(crate, {})
    now = functions(new)
    for name, (public, head) in functions(old).items():
        head = renamed(coded(head, crate), {}, old["src/lib.rt" if "src/lib.rt" in old else "src/main.rt"], crate)
        if name not in now:
            rows.append(("function, gone" if not public else "PUBLIC function, gone", name, head, ""))
        elif public and plain(head) != plain(now[name][1]):
            rows.append(("function", name, head, now[name][1]))
    now = types(new)
    for name, words in types(old).items():
        if name not in GONE or GONE[name][0] != crate:
            words = coded(words, crate) if name not in KEPT else re.sub(r"Refused\s*\(\s*Refusal\s*\),", "", words)
            if plain(words) != plain(now.get(name, "")):
                rows.append(("type", name, words, now.get(name, "")))
    now = declared(new)
    names = collections.defaultdict(list)
    for (name, path), what in now.items():
        names[name].append((path, what))
    for (name, path), (kind, words) in declared(old).items():
        words = renamed(words, aliases(old[path], crate), old[path], crate)
        if name not in names:
            if SAME.get(name) != crate:
                rows.append((kind + ", gone", f"{name} ({path[:-5]})", words, ""))
        elif plain(words) not in [plain(w) for _, (_, w) in names[name]]:
            here = [w for p, (_, w) in names[name] if p == path] or [names[name][0][1][1]]
            rows.append((kind, f"{name} ({path[:-5]})", words, here[0]))
    count.update(kind for kind, *_ in rows)
    if any(row[3] for row in rows) and "--table" in sys.argv:
        print(f"\n### {crate}\n")
        for kind, name, was, is_now in (row for row in rows if not row[0].endswith("gone")):
            cell = lambda text: "`" + " ".join(text.split()).replace("|", "\\|") + "`" if text.strip() else "—"
            print(f"- {kind} {name}\n  - {cell(was)}" + (f"\n  - {cell(is_now)}" if is_now else ""))
    elif "--table" not in sys.argv:
        for row in rows:
            print(crate, *row[:2])
print(dict(count), file=sys.stderr)
