#!/usr/bin/env python3
"""port_moves [CRATE...]: run at the top of a tree. Moves theorems of specs/ to proofs/ of the same crate, statements and proofs unchanged, so that
an edit of a definition is refused where a theorem falls and isn't taken for a text that can't be read: what the check says of a file of specs/ in
which a theorem was rejected that others rest on has no name in front. Definitions and records that are pub stay in specs/MODULE, with what they
need; the rest of the module goes to proofs/MODULE. Every import of a moved name, in any crate, edit or page, is led there. A pure transformation of the
text: a module that was moved is left alone, so it may be run again. It prints what moved."""
import pathlib
import re
import subprocess
import sys

# The modules of each crate whose theorems move.
MODULES = {
    "sums": ["KeyLaws", "OrderLaws", "ComponentLaws", "MeetLaws", "CountLaws", "RunLaws", "SizeLaws"],
    "bodies": ["ListLaws", "EdgeLaws", "BodyLaws", "ShellLaws", "Full", "Demand"],
    "hull": ["Laws", "Members"],
    "indexed": ["Laws"],
    "insertion": ["Laws"],
    "inside": ["Laws"],
    "solid_check": ["Laws", "Storing"],
}
# Theorems of a file of proofs/ that go to another: an edit changes the first, and what depends on a rejected theorem is told at its place.
DIVIDE = {
    "interval": {"Laws": ("Squares", ["square_low", "square_floor"])},
}
# Pairs of edits that only made a proof's text follow the edit, and that the check would not read: the place in the edit's list of pairs.
DROPPED = {
    "crates/bodies/must-fail/shells_of_two.edit": [
        "→ Each (λ g. 0 < length g) (map (map h) gs)",
        "each_map (λ g. 0 < length g) (map h) gs",
        "(λ g. 0 < length (map h g)) gs",
    ],
}
# Items that stay although they are no definitions, and definitions that move.
STAY = {}
GO = {}

MARKS = r"(?:(?:pattern|unfoldable|abbrev|axiom|pub) )*"
SIGNED = re.compile(rf"({MARKS})(?:(record |data )([^\s(){{}}]+)|()([^\s(){{}}]+)(?: \{{[^}}]*\}})* :(?: |$))")
USE = re.compile(r"^(\s*(?:ghost |pub |unfoldable )*use )([\w.]+?)(?:\.\{([^}]*)\}|\.([^\s.{};*]+))?(;?)$")
TOKEN = re.compile(r"[^\s(){}\[\],;.\"`]+")


def indent(line):
    return len(line) - len(line.lstrip())


def tokens(text):
    found = set()
    for line in text.split("\n"):
        line = line.split("-- ")[0]
        found |= {*TOKEN.findall(line), *re.findall(r"\[\]", line)}
    return found


def uses(found, name):
    """Whether the tokens have the name, an operator also by its middle."""
    return name in found or "◌" in name and any(part in found for part in name.split("◌") if part)


class Item:
    """A declaration, with the comments before it, or a block of them."""

    def __init__(self, above, lines, deep):
        self.above, self.lines, self.deep, self.children, self.stays = above, lines, deep, None, False
        self.name = self.marks = self.kind = ""
        self.params = []

    def text(self):
        return "\n".join(self.lines)

    def is_type(self):
        signature = []
        for line in self.lines:
            if signature and indent(line) <= self.deep:
                break
            signature.append(line)
        return re.search(r"(→|:) Type( \S+)?$", re.sub(r"\s+", " ", " ".join(signature)).strip()) is not None

    def is_definition(self):
        return bool(self.kind) or "abbrev" in self.marks or "unfoldable" in self.marks or "pattern" in self.marks or self.is_type()


def fields(item):
    return {*re.findall(r"(?m)^\s+pub ([^\s:]+) :", item.text())} if item.kind == "record " else set()


def items_of(lines, deep):
    found, above, at = [], [], 0
    while at < len(lines):
        line = lines[at]
        if not line.strip():
            at += 1
            continue
        end = at + 1
        if line.lstrip().startswith("-- ") or line.strip() == "--":
            above.append(line)
            at = end
            continue
        while end < len(lines) and (not lines[end].strip() or indent(lines[end]) > deep):
            end += 1
        chunk = lines[at:end]
        while chunk and not chunk[-1].strip():
            chunk.pop()
        here = line[deep:]
        signed = SIGNED.match(here)
        if here.startswith("module "):
            top = next(k for k, it in enumerate(chunk) if it.rstrip().endswith("where"))
            item = Item(above, chunk[: top + 1], deep)
            inner = next(indent(it) for it in chunk[top + 1 :] if it.strip())
            item.children = items_of(chunk[top + 1 :], inner)
            item.params = [name for group in groups(" ".join(chunk[: top + 1])) for name in group]
            found.append(item)
        elif signed:
            item = Item(above, chunk, deep)
            item.marks, item.kind, item.name = signed[1], signed[2] or "", signed[3] or signed[5]
            found.append(item)
        else:
            assert found and found[-1].children is None, line
            found[-1].lines += [*above, *chunk]
        above = []
        at = end
    return found


def groups(header):
    """The names of the explicit parameters of a block."""
    depth, start, found = 0, 0, []
    for at, it in enumerate(header):
        if it in "({":
            if not depth:
                start = at
            depth += 1
        elif it in ")}":
            depth -= 1
            if not depth and it == ")" and header[start] == "(":
                found.append(header[start + 1 : at].split(" : ")[0].split())
    return found


def leaves(items, blocks=()):
    for item in items:
        if item.children is None:
            yield item, blocks
        else:
            yield from leaves(item.children, (*blocks, item))


def led(text, name, to):
    """The text with a name replaced, but not where it's unfolded, nor a field or a part of another name."""
    rows = []
    for row in text.split("\n"):
        if re.match(r"\s*(unfolding|-- )", row):
            rows.append(row)
        else:
            rows.append(re.sub(rf"(?<![^\s(){{}}\[\],;])(?<!unfold ){re.escape(name)}(?![^\s(){{}}\[\],;.])", lambda it: applied(it, name, to), row))
    return "\n".join(rows)


def applied(it, name, to):
    before = it.string[: it.start()]
    if name == "at" and re.search(r"\brw (\([^()]*\)|\S+) $", before):
        return name
    # at the head of an application
    if re.search(r"([({\[,;=∙≡→≤<+*∷×⊎↔]|\+\+|\bin|\S\.|^|:) ?$", before.lstrip()) and not before.endswith(". ."):
        return to
    return f"({to})"


class Module:
    def __init__(self, crate, name, folder="specs"):
        self.crate, self.name, self.folder = crate, name, folder
        lines = (pathlib.Path("crates") / crate / folder / f"{name}.antt").read_text().split("\n")
        last = max((k for k, it in enumerate(lines) if USE.match(it) and not it[0].isspace()), default=-1)
        self.head = [it for it in lines[: last + 1] if it.strip() and not USE.match(it)]
        self.uses = [it for it in lines[: last + 1] if USE.match(it)]
        self.items = items_of(lines[last + 1 :], 0)

    def written(self, stays, away=()):
        """The text of what stays, or of the rest."""
        body = self.part(self.items, stays, ())
        if not body:
            return None
        text = "\n\n".join(body)
        found = tokens(text)
        rows = []
        for row in self.uses:
            it = USE.match(row)
            if it[3] is not None:
                names = [name.strip() for name in it[3].split(",") if uses(found, name.split(" as ")[-1].strip())]
                names = [name for name in names if (it[2], name) not in away]
                if names:
                    rows.append(f"{it[1]}{it[2]}.{{{', '.join(names)}}}")
            elif (it[4] or it[2].split(".")[-1]) in found:
                rows.append(row)
        if not stays:
            kept = [item.name for item, _ in leaves(self.items) if item.stays and uses(found, item.name)]
            if kept:
                rows.append(f"use Rattle.{self.crate}.{self.folder}.{self.name}.{{{', '.join(kept)}}}")
        return "\n".join([*self.head, *rows]) + "\n\n" + text + "\n"

    def part(self, items, stays, blocks):
        found = []
        for item in items:
            if item.children is not None:
                inner = self.part(item.children, stays, (*blocks, item))
                if inner:
                    found.append("\n".join([*item.above, *item.lines]) + "\n" + "\n\n".join(inner))
            elif item.stays == stays:
                text = item.text()
                if not stays:
                    for other, around in leaves(self.items):
                        common = [it for it in around if it in blocks]
                        params = [name for block in common for name in block.params]
                        if other.stays and params:
                            text = led(text, other.name, f"{other.name} {' '.join(params)}")
                found.append("\n".join([*item.above, text]))
        return found


def planned(crate):
    """The modules of a crate, each item marked whether it stays."""
    folder = pathlib.Path("crates") / crate / "specs"
    modules = [Module(crate, name) for name in MODULES[crate] if (folder / f"{name}.antt").is_file()]
    every = [(module, item) for module in modules for item, _ in leaves(module.items)]
    for module, item in every:
        label = f"{module.name}.{item.name}"
        item.stays = label in STAY.get(crate, []) or "pub" in item.marks and item.is_definition() and label not in GO.get(crate, [])
    again = True
    while again:
        again = False
        for module in modules:
            for item, blocks in leaves(module.items):
                if not item.stays:
                    continue
                found = tokens("\n".join([item.text(), *(block.text() for block in blocks)])) - fields(item)
                before = []
                for it, _ in leaves(module.items):
                    if it is item:
                        break
                    before.append(it)
                brought = {name for row in module.uses for name in re.findall(rf"Rattle\.{crate}\.specs\.(\w+)\.\{{([^}}]*)", row)}
                brought = {(path, name.strip()) for path, names in brought for name in names.split(",")}
                for other, where in every:
                    if not where.stays and uses(found, where.name) and (where in before if other is module else (other.name, where.name) in brought):
                        where.stays = again = True
                        print(f"{crate}: {other.name}.{where.name} stays, for {module.name}.{item.name} needs it")
    # what stays and is cited from the proofs is theirs to cite, and to unfold
    for module in modules:
        rest = "\n".join(item.text() for item, _ in leaves(module.items) if not item.stays)
        found = tokens(rest)
        for item, _ in leaves(module.items):
            if item.stays and uses(found, item.name):
                mark(item, rest, crate, module)
    return [module for module in modules if any(not item.stays for item, _ in leaves(module.items))]


def mark(item, rest, crate, module):
    marks = item.marks
    if "pub" not in marks:
        marks += "pub "
    unfolds = re.search(rf"(?m)^\s*unfolding\b.*(?<!\S){re.escape(item.name)}(?!\S)|unfold [^→=]*\b{re.escape(item.name)}\b", rest)
    if unfolds and not item.kind and "abbrev" not in marks and "unfoldable" not in marks:
        marks = "unfoldable " + marks
    if marks != item.marks:
        print(f"{crate}: {module.name}.{item.name} is marked {marks}")
        item.lines[0] = item.lines[0][: item.deep] + marks + item.lines[0][item.deep + len(item.marks) :]
        item.marks = marks


def listed(crate, folder, names, there):
    path = pathlib.Path("crates") / crate / folder / "Lib.antt"
    rows = path.read_text().split("\n") if path.is_file() else []
    rows = [row for row in rows if row.strip()]
    for name in names:
        if there and f"pub mod {name}" not in rows and f"mod {name}" not in rows:
            rows.append(f"pub mod {name}")
        if not there:
            rows = [row for row in rows if row not in (f"pub mod {name}", f"mod {name}")]
    path.parent.mkdir(exist_ok=True)
    path.write_text("\n".join(rows) + "\n" if rows else "")


def reimported(text, moved, whole):
    """The text with each import of a moved name led to where it stands now. moved: the names by (crate, folder, module), with their new place."""
    rows = []
    for row in text.split("\n"):
        it = re.match(r"^((?:old: |new: )?\s*(?:ghost |pub |unfoldable )*use )Rattle\.(\w+)\.(specs|proofs)\.(\w+)(?:\.\{([^}]*)\}|\.([^\s.{};]+))?(;?)$", row)
        key = it and (it[2], it[3], it[4])
        if not it or key not in moved:
            rows.append(row)
            continue
        here, (there, away) = f"Rattle.{it[2]}.{it[3]}.{it[4]}", moved[key]
        if it[5] is not None:
            names = [name.strip() for name in it[5].split(",")]
            gone = [name for name in names if name.split(" as ")[0].strip() in away]
            kept = [name for name in names if name not in gone]
            if kept:
                rows.append(f"{it[1]}{here}.{{{', '.join(kept)}}}{it[7]}")
            if gone:
                rows.append(f"{it[1]}{there}.{{{', '.join(gone)}}}{it[7]}")
        elif it[6] in away or it[6] is None and key in whole:
            rows.append(row.replace(here, there))
        else:
            rows.append(row)

    def named(it):
        there, away = moved.get((it[1], it[2], it[3]), ("", ()))
        return f"{there}.{it[4]}" if it[4] in away else it[0]

    return re.sub(r"Rattle\.(\w+)\.(specs|proofs)\.(\w+)\.([^\s.{};,()`\]]+)", named, "\n".join(rows))


def refiled(path, crate, texts):
    """An edit whose file was divided: each pair goes to the file that has its old text now. texts: the parts of each divided file."""
    rows, name, now = [], "", ""
    for row in path.read_text().split("\n"):
        if row.startswith("file: "):
            name = now = row[6:].strip()
        if row.startswith("old: ") and name in texts:
            fits = [part for part, text in texts[name].items() if row[5:] in text]
            if not fits:
                print(f"{path}: no part of {name} has {row[5:]}")
            if fits and fits[0] != now:
                now = fits[0]
                if rows and rows[-1].startswith("file: "):
                    rows.pop()
                rows.append(f"file: {now}")
        rows.append(row)
    text = "\n".join(rows)
    if text != path.read_text():
        path.write_text(text)


def paged(text, moved, whole):
    """A page's text: `NAME` (CRATE/specs/MODULE) of a moved name, or a module that moved whole."""
    for (crate, folder, module), (there, away) in moved.items():
        at, to = f"{crate}/{folder}/{module}", there.removeprefix("Rattle.").replace(".", "/")
        rows = []
        for row in text.split("\n"):
            if (crate, folder, module) in whole:
                row = re.sub(rf"\b{at}\b", to, row)
                if row.startswith(f"| {crate} |"):
                    row = re.sub(rf"`{folder}/{module}`", f"`{to.removeprefix(crate + '/')}`", row)
            for name in away:
                row = re.sub(rf"(`{re.escape(name)}`,? \(?){at}\b", lambda it: it[1] + to, row)
            rows.append(row)
        text = "\n".join(rows)
    return text


def dropped(path, olds):
    """An edit without these pairs."""
    rows, skips = [], False
    for row in path.read_text().split("\n"):
        if row.startswith("old: "):
            skips = row[5:] in olds
        if not skips:
            rows.append(row)
        if row.startswith("new:"):
            skips = False
    path.write_text("\n".join(rows))


def told(crate, module, there):
    for item, _ in leaves(module.items):
        if not item.stays and "pub" in item.marks:
            print(f"moved\t{crate}\t{item.name}\t{module.folder}/{module.name}\t{there}\t{'definition' if item.is_definition() else 'theorem'}")


def main():
    crates = sys.argv[1:] or sorted({*MODULES, *DIVIDE})
    moved, whole = {}, set()
    for crate in crates:
        folder = pathlib.Path("crates") / crate
        texts, gone, new = {}, [], []
        modules = planned(crate) if crate in MODULES else []
        away = {(f"Rattle.{crate}.specs.{it.name}", item.name) for it in modules for item, _ in leaves(it.items) if not item.stays}
        for module in modules:
            here, there = folder / "specs" / f"{module.name}.antt", folder / "proofs" / f"{module.name}.antt"
            if there.exists():
                sys.exit(f"{there} stands already")
            names = {item.name for item, _ in leaves(module.items) if not item.stays}
            stays, goes = module.written(True, away), module.written(False)
            moved[crate, "specs", module.name] = (f"Rattle.{crate}.proofs.{module.name}", names)
            there.parent.mkdir(exist_ok=True)
            new.append(module.name)
            if stays:
                here.write_text(stays)
                there.write_text(goes)
            else:
                subprocess.run(["git", "mv", here, there], check=True)
                whole.add((crate, "specs", module.name))
                gone.append(module.name)
                goes = there.read_text()
            texts[f"specs/{module.name}.antt"] = {f"specs/{module.name}.antt": stays or "", f"proofs/{module.name}.antt": goes}
            told(crate, module, f"proofs/{module.name}")
        for name, (to, names) in DIVIDE.get(crate, {}).items():
            here, there = folder / "proofs" / f"{name}.antt", folder / "proofs" / f"{to}.antt"
            if there.exists():
                continue
            module = Module(crate, name, "proofs")
            for item, _ in leaves(module.items):
                item.stays = item.name not in names
            stays, goes = module.written(True), module.written(False)
            here.write_text(stays)
            there.write_text(goes)
            moved[crate, "proofs", name] = (f"Rattle.{crate}.proofs.{to}", {*names})
            new.append(to)
            texts[f"proofs/{name}.antt"] = {f"proofs/{name}.antt": stays, f"proofs/{to}.antt": goes}
            told(crate, module, f"proofs/{to}")
        if new:
            listed(crate, "specs", gone, False)
            listed(crate, "proofs", new, True)
        for edit in [*pathlib.Path("tests/must-fail", crate).glob("*.edit"), *(folder / "must-fail").glob("*.edit")]:
            refiled(edit, crate, texts)
            if str(edit) in DROPPED:
                dropped(edit, DROPPED[str(edit)])
    paths = [path for end in ("antt", "rt", "edit", "md") for path in pathlib.Path("crates").rglob(f"*.{end}") if "out" not in path.parts]
    paths += [*pathlib.Path("tests/must-fail").rglob("*.edit"), *pathlib.Path("docs").glob("*.md"), pathlib.Path("README.md")]
    for path in paths:
        if path.name in ("PORT.md", "PORTING-LEFT.md"):
            continue
        text = path.read_text()
        to = reimported(text, moved, whole)
        if path.suffix == ".md":
            to = paged(to, moved, whole)
        if to != text:
            path.write_text(to)


if __name__ == "__main__":
    main()
