#!/usr/bin/env python3
"""Move theorems of the crates tube, tube_volume, tube_domain and numbered from specs/ to proofs/, statements and proofs unchanged.

Run once, with no arguments, at the top of the repository. A second run changes nothing.
A theorem moves where it rests on a theorem or a definition that a must-fail edit makes false: what depends on a refused declaration is
reported in its own file, without a name, and in specs/, or in the file that the edit changes, such a line reads as a bad edit. A private
lemma that only such theorems use moves with them. The definitions stay. A file gets the imports that its text uses, a name that another
file now uses becomes `pub`, and the edits and pages that name a moved theorem name its new file.
"""
import pathlib
import re
import sys

# crate: module of specs/: module of proofs/: the theorems that go there
MOVED = {
    "tube": {
        "Near": {
            "Near": """
                axis_ordered axis_sure flat flat_ordered squared_ordered squared_sure excess_sure called_apart
                called_near sure nearer farther nearness""",
        },
        "Tube": {
            "Tube": """
                distance_sure over_low under_high in_high in_low holds back_held back_finite zero_bounded on outside
                inside tube""",
        },
        "Worked": {
            "Worked": """
                given p1_tube p3_tube""",
        },
    },
    "tube_volume": {
        "Bodies": {
            "Bodies": """
                held inner_signed body_enclosed""",
        },
        "Volume": {
            "Volume": """
                total_as minor_sure part_sure add_total wedge_total fan_total facet_total shell_total first_held
                zero_holds start called_outward called_inward shell_signed""",
        },
    },
    "tube_domain": {
        "Checked": {
            "Points": """
                all_true checked_points""",
            "Checked": """
                get_all each_all origin_size face_drawn checked_faces certain certain_all checked_tube checked_tubes""",
        },
        "Domain": {
            "Domain": """
                positive_held units_most fair_size fair_point_lem distance_most gap_most squared_most excess_most
                domain_bounded near_bounded""",
            "Tube": """
                domain_tube""",
        },
        "Length": {
            "Length": """
                not_negative reaches add_reaches sqr_reaches squared square two_squares third dot_size square_least
                pair_least by_pair by_x by_y by_z reached over_size root_source over_length""",
            "Longer": """
                not_longer""",
        },
        "Normal": {
            "Normal": """
                made frame_normal sub3_size cross_size plane_framed face_framed opposite_framed""",
        },
        "Read": {
            "Read": """
                taken layout_precision job_tube cell_precision cell_tube""",
        },
        "Size": {
            "Size": """
                power_less add_size sub_size mul_size first second last add_most sub_most mul_most sqr_most""",
        },
        "Spans": {
            "Spans": """
                real outward_spans add_spans sub_spans mul_spans sqr_spans""",
        },
        "Volume": {
            "Volume": """
                arm_most cross_most add_part parts_more wedge_most fan_most facet_most arms volume_parts volume_bounded""",
        },
    },
    "numbered": {
        "Calls": {
            "Told": """
                told_number told_bytes""",
            "Calls": """
                told fuse_numbered cells_numbered fitted_numbered offset_numbered hollow_numbered mesh_numbered
                fuse_told cells_told offset_told hollow_told mesh_told""",
        },
        "Cuts": {
            "Cuts": """
                noted_numbered signs_numbered at_met held_met corner_met landed_met vague_met cut_met either_met
                edge_met push_face_numbered push_cap_numbered push_both_numbered pushed_numbered by_numbered
                ring_numbered chain_numbered ringed_numbered chains_numbered hull_numbered cap_numbered
                add_face_numbered keep_face_numbered joined_numbered cut_numbered by_signs_numbered clip_numbered
                add_cell_numbered add_part_numbered add_cut_numbered carve_numbered clip_part_numbered minus_numbered
                cut_cells_numbered split_cell_numbered split_plane_numbered pieces_numbered""",
        },
        "Fusing": {
            "Fusing": """
                judged_incident either_incident on_incident of_incident end_incident joined_numbered insides_numbered
                line_numbered edge_numbered conform_numbered cycle_numbered conform_all_numbered arrange_numbered
                arrangement_numbered users_numbered facets_numbered runs_numbered edges_numbered outer_numbered
                by_numbered shells_numbered body_numbered bodies_numbered sense_numbered volume_numbered
                fuse_in_numbered fused_numbered""",
        },
        "Mesh": {
            "Mesh": """
                zero_turned sign_turned turn_turned handed_judged basis_judged shadow_numbered projected_numbered
                first_judged each_judged settled_judged apart_judged by_judged edges_judged pair_judged simple_judged
                where_blocked resolved_blocked by_blocked in_blocked else_blocked all_blocked ear_scanned found_scanned
                at_turned from_scanned clip_by_numbered clip_from_numbered end_by_numbered clipped_numbered
                given_numbered triangles_numbered triangles_of_numbered""",
        },
        "Moves": {
            "Moves": """
                to_numbered by_numbered at_numbered points_numbered face_numbered above_judged below_judged
                against_judged crossed_judged within_judged distances_numbered moved_numbered room_judged of_numbered
                wall_numbered""",
        },
        "Never": {
            "Never": """
                edge_sure opened_never_8""",
        },
        "Numbered": {
            "Numbered": """
                numbered_more judged_more""",
        },
        "Points": {
            "Points": """
                met_numbered only_numbered merge_numbered""",
        },
        "Solids": {
            "Solids": """
                pair_judged apart_judged side_judged below_judged sides_judged zero_judged turn_judged turns_judged
                given_judged by_judged shaped_judged after_numbered check_numbered built_numbered finish_numbered
                open_numbered open_cell_numbered both_solids_numbered""",
        },
    },
}

# the first lines of the files of proofs/ that are named after no file of specs/
HEADS = {
    ("tube_domain", "Longer"): "A coordinate of a vector is at most twice as large as the vector's rounded length: the step from `refuted` (specs/Length).",
    ("tube_domain", "Tube"): "What the tube says of document 01's domain, where nothing is asked of the ends.",
    ("tube_domain", "Points"): "The points of a solid that passes the check have coordinates of at most 2 ^ 20 in size.",
    ("numbered", "Told"): "What is told of an outcome is its number and its bytes.",
}

# what a proof takes from a block `module _` that is now in another file, with the block's parameters
ARGUMENTS = {
    ("tube_domain", "Longer"): [("absurd (refuted (size", "absurd (refuted d r N least K p n most held (size")],
    ("tube_domain", "Normal"): [("let l = long (length_v n)", "let l = long t F (length_v n)")],
    ("tube_domain", "Tube"): [("tube t w p domain_given domain_bounded", "tube t w p (domain_given F K f s) (domain_bounded F K f s)")],
    ("tube_domain", "Checked"): [("(face_drawn s.points checked_points)", "(face_drawn s.points (checked_points F counted s c h e))")],
    ("numbered", "Never"): [("(between w a b)) crossing_sure", "(between w a b)) (crossing_sure t w a b s)")],
}

# the files of edits of a moved theorem
EDITS = {
    "tube_domain/coordinates_600": ("specs/Normal.antt", "proofs/Normal.antt"),
    "tube_domain/domain_1016": ("specs/Domain.antt", "proofs/Domain.antt"),
    "tube_domain/normal_of_one": ("specs/Length.antt", "proofs/Longer.antt"),
    "tube_domain/product_less": ("specs/Size.antt", "proofs/Size.antt"),
    "tube_domain/unchecked": ("specs/Checked.antt", "proofs/Points.antt"),
    "tube_domain/volume_2_52": ("specs/Volume.antt", "proofs/Volume.antt"),
    "numbered/read_256": ("specs/Calls.antt", "proofs/Told.antt"),
}

# what such an edit names, to be imported there
NAMES = {
    "tube_domain/unchecked": ("use Rattle.solid_check.specs.Check.{check}", "use Rattle.solid_check.specs.Check.{cell_of, check}"),
}

# page: old text, new text
PAGES = {
    "docs/TUBE.md": [
        ("(specs/Distance says what is claimed, specs/Tube and specs/Near prove it)", "(specs/Distance says what is claimed, proofs/Tube and proofs/Near prove it)"),
        ("`cell_tube` (tube_domain/specs/Read)", "`cell_tube` (tube_domain/proofs/Read)"),
    ],
    "docs/ARCHITECTURE.md": [
        ("(`specs/Within`, `specs/Spans`, `specs/Size`), and a frame's normal (`specs/Normal`)", "(`specs/Within`, `proofs/Spans`, `proofs/Size`), and a frame's normal (`proofs/Normal`)"),
        ("the number and the bytes (`specs/Calls`)", "the number and the bytes (`proofs/Calls`)"),
    ],
    "docs/PROOF.md": [
        ("`mesh_numbered` (numbered/specs/Calls)", "`mesh_numbered` (numbered/proofs/Calls)"),
        ("`mesh_told` (numbered/specs/Calls)", "`mesh_told` (numbered/proofs/Calls)"),
        ("`tube` (tube/specs/Tube)", "`tube` (tube/proofs/Tube)"),
        ("`nearness` (tube/specs/Near)", "`nearness` (tube/proofs/Near)"),
        ("`over_length` (tube_domain/specs/Length)", "`over_length` (tube_domain/proofs/Length)"),
        ("`opposite_framed` (tube_domain/specs/Normal)", "`opposite_framed` (tube_domain/proofs/Normal)"),
        ("`domain_bounded` (tube_domain/specs/Domain)", "`domain_bounded` (tube_domain/proofs/Domain)"),
        ("`checked_tubes` (tube_domain/specs/Checked)", "`checked_tubes` (tube_domain/proofs/Checked)"),
        ("`cell_tube` (tube_domain/specs/Read)", "`cell_tube` (tube_domain/proofs/Read)"),
        ("`near_bounded` (tube_domain/specs/Domain)", "`near_bounded` (tube_domain/proofs/Domain)"),
        ("`volume_bounded` (tube_domain/specs/Volume)", "`volume_bounded` (tube_domain/proofs/Volume)"),
        ("`crossing_sure`, and of every job that opens `opened_never_8` (numbered/specs/Never)", "`crossing_sure` (numbered/specs/Never), and of every job that opens `opened_never_8` (numbered/proofs/Never)"),
        ("`shell_signed` (tube_volume/specs/Volume)", "`shell_signed` (tube_volume/proofs/Volume)"),
        ("`body_enclosed`\n(tube_volume/specs/Bodies)", "`body_enclosed`\n(tube_volume/proofs/Bodies)"),
    ],
}

SIGNED = re.compile(r"(?:(abbrev|unfoldable)\s+)?(pub\s+)?([^\s(){}:]+) :(?=\s|$)")
TYPED = re.compile(r"(pub\s+)?(record|data)\s+(\S+)")
WORD = re.compile(r"[^\s(){}\[\];,`]+")
# a name that a text gives, and does not use: of a field, an argument, a variable or a declaration
NAMED = re.compile(r"(?:(?<=\{)|(?<=\{ )|(?<=; )|(?<=let ))[^\s{}();]+ = |^\s+[^\s{}();]+ = (?=.*;$)|^\s*(?:pub )?[^\s{}();]+ :(?= )")
USE = re.compile(r"use (\S+)\.\{(.*)\}$")


class Item:
    """A declaration, or a block `module _`, which has children; lead is the comments and blank lines before it."""

    def __init__(self, kind, name, lines, lead, children=None):
        self.kind, self.name, self.lines, self.lead, self.children = kind, name, lines, lead, children


def start(line, column):
    """The kind and name of the declaration that begins in a line, or None."""
    text = line.strip()
    if not text or len(line) - len(line.lstrip(" ")) != column:
        return None
    if text.startswith("module _"):
        return "module", None
    if it := TYPED.match(text):
        return it[2], it[3]
    if it := SIGNED.match(text):
        return it[1] or "theorem", it[3]
    return None


def parsed(lines, column):
    items, lead, at = [], [], 0
    while at < len(lines):
        line = lines[at]
        if not line.strip() or line.strip().startswith("--"):
            lead.append(line)
            at += 1
            continue
        kind, name = start(line, column)
        end = at + 1
        while end < len(lines) and not (len(lines[end]) - len(lines[end].lstrip(" ")) == column and (start(lines[end], column) or lines[end].strip().startswith("--"))):
            end += 1
        body = lines[at:end]
        while not body[-1].strip() or body[-1].strip().startswith("--"):
            body.pop()
            end -= 1
        children = None
        if kind == "module":
            head = next(n for n, it in enumerate(body) if it.rstrip().endswith("where")) + 1
            children = parsed(body[head:], column + 2)
            body = body[:head]
        items.append(Item(kind, name, body, lead, children))
        lead, at = [], end
    return items


def read(path):
    lines = path.read_text().split("\n")
    while lines and not lines[-1]:
        lines.pop()
    at = 0
    while lines[at].startswith("--"):
        at += 1
    first = at
    while at < len(lines) and lines[at].startswith("use "):
        at += 1
    return lines[:first], lines[first:at], parsed(lines[at:], 0)


def leaves(items):
    for it in items:
        if it.children is None:
            yield it
        else:
            yield from leaves(it.children)


def groups(lead):
    """The groups of comment lines, each with whether a blank line follows it."""
    out, now = [], []
    for line in lead:
        if line.strip():
            now.append(line)
        elif now:
            out.append((now, True))
            now = []
    return out + ([(now, False)] if now else [])


def written(items, wanted):
    """The lines of the items that are wanted, with their comments; the head of a section goes wherever something of the section goes, but
    for one right above a definition, and without what is said there of the first declaration alone."""
    out, section = [], None
    for it in items:
        for group, apart in groups(it.lead):
            if group[0].strip().startswith("-- ----"):
                own = not apart and it.kind not in ("theorem", "module")
                mine = wanted(it) if it.children is None else any(wanted(leaf) for leaf in leaves(it.children))
                section = None if own and not mine else (group if mine or apart else group[:1], apart)
        inner = None if it.children is None else written(it.children, wanted)
        if inner is None and not wanted(it) or inner == []:
            continue
        out.append("")
        if section:
            out += section[0] + ([""] if section[1] else [])
            section = None
        for group, apart in groups(it.lead):
            if not group[0].strip().startswith("-- ----"):
                out += group + ([""] if apart else [])
        out += it.lines + ([] if inner is None else inner[1:])
    return out


def words(lines):
    out = set()
    for line in lines:
        if not line.strip().startswith("--"):
            line = NAMED.sub(" ", line)
            if "[]" in line:
                out.add("[]")
            for word in WORD.findall(line):
                out |= {word, word.split(".")[0]}
    return out


def used(name, found):
    return name in found or "◌" in name and all(it in found for it in name.split("◌") if it)


def imports(uses, found):
    """The lines of imports, with only the names that are found."""
    out = []
    for line in uses:
        if it := USE.match(line):
            names = [name for name in it[2].split(", ") if used(name.split(" as ")[-1], found)]
            if names:
                out.append(f"use {it[1]}.{{{', '.join(names)}}}")
        elif used(line.split(" as ")[-1], found):
            out.append(line)
    return out


def opened(it):
    """Makes a declaration `pub`, and the fields of a record with it."""
    line = it.lines[0]
    room = line[:len(line) - len(line.lstrip(" "))]
    text = line.strip()
    if it.kind in ("abbrev", "unfoldable"):
        it.lines[0] = f"{room}{it.kind} pub {text.removeprefix(it.kind).strip()}"
    else:
        it.lines[0] = f"{room}pub {text}"
    if it.kind == "record":
        it.lines[1:] = [re.sub(rf"^{room}  (?!pub )(?=\S+ :)", f"{room}  pub ", line) for line in it.lines[1:]]


def is_pub(it):
    return bool(re.match(r"\s*(?:(?:abbrev|unfoldable)\s+)?pub\s", it.lines[0]))


def places():
    return {(crate, module, name): target for crate, modules in MOVED.items() for module, targets in modules.items() for target, text in targets.items() for name in text.split()}


def redirected(line, place):
    """An import, with each moved name imported from where it is now."""
    it = USE.match(line)
    own = it and re.match(r"Rattle\.(\w+)\.specs\.(\w+)$", it[1])
    if not own:
        return [line]
    out = {}
    for name in it[2].split(", "):
        target = place.get((own[1], own[2], name.split(" as ")[0]))
        out.setdefault(f"Rattle.{own[1]}.proofs.{target}" if target else it[1], []).append(name)
    return [f"use {module}.{{{', '.join(names)}}}" for module, names in out.items()]


def split(crate, module, place, files):
    """Divides a file of specs/, and puts what goes to proofs/ into files: (crate, target): the head, imports, and lines."""
    path = pathlib.Path("crates") / crate / "specs" / f"{module}.antt"
    head, uses, items = read(path)
    at = {it.name: place.get((crate, module, it.name), "") for it in leaves(items)}
    lost = {name for c, m, name in place if (c, m) == (crate, module)} - {*at}
    if lost:
        sys.exit(f"port_split: {path}: no {', '.join(sorted(lost))}")
    targets = sorted({*at.values()})
    texts = {target: written(items, lambda it: at[it.name] == target) for target in targets}
    found = {target: words(lines) for target, lines in texts.items()}
    for it in leaves(items):
        if any(target != at[it.name] and it.name in found[target] for target in targets) and not is_pub(it):
            opened(it)
    for target in targets:
        lines = written(items, lambda it: at[it.name] == target)
        own = {}
        for it in leaves(items):
            other = f"Rattle.{crate}.proofs.{at[it.name]}" if at[it.name] else f"Rattle.{crate}.specs.{module}"
            names = [it.name] + [line.split()[0] for line in it.lines[1:] if it.kind == "data" and " : " in line]
            for name in names:
                if at[it.name] != target and name in found[target]:
                    own.setdefault(other, []).append(name)
        kept = imports([line for use in uses for line in redirected(use, place)], found[target])
        kept += [f"use {other}.{{{', '.join(names)}}}" for other, names in sorted(own.items(), reverse=True)]
        start = [f"-- {HEADS[crate, target]}"] if (crate, target) in HEADS else head
        if not target:
            path.write_text("\n".join(head + kept + lines) + "\n")
        else:
            for old, new in ARGUMENTS.get((crate, target), []):
                if sum(line.count(old) for line in lines) != 1:
                    sys.exit(f"port_split: {path}: not once: {old}")
                lines = [line.replace(old, new) for line in lines]
            if (crate, target) in files:
                sys.exit(f"port_split: two files of specs/ go to {crate}/proofs/{target}")
            files[crate, target] = "\n".join(start + kept + lines) + "\n"
    if "" not in targets:
        path.unlink()
        lib = path.with_name("Lib.antt")
        lib.write_text(lib.read_text().replace(f"pub mod {module}\n", ""))


def main():
    top = pathlib.Path("crates")
    if not top.is_dir():
        sys.exit("port_split: run it at the top of the repository")
    place = places()
    if all((top / crate / "proofs" / f"{target}.antt").exists() for (crate, _, _), target in place.items()):
        print("port_split: done before")
        return
    files = {}
    for crate, modules in MOVED.items():
        for module in modules:
            split(crate, module, place, files)
        path = top / crate / "src" / "lib.rt"
        path.write_text(path.read_text().replace("all of it stands in `specs/`.", "all of it stands in `specs/` and `proofs/`."))
    for (crate, target), text in files.items():
        folder = top / crate / "proofs"
        folder.mkdir(exist_ok=True)
        (folder / f"{target}.antt").write_text(text)
        lib = folder / "Lib.antt"
        lines = lib.read_text().split("\n")[:-1] if lib.exists() else []
        lib.write_text("\n".join([*lines, f"pub mod {target}"]) + "\n")
    for path in sorted(top.glob("*/*/**/*.antt")):
        if path.relative_to(top).parts[1] in ("specs", "proofs"):
            text = path.read_text()
            new = "\n".join(line for old in text.split("\n") for line in (redirected(old, place) if old.startswith("use ") else [old]))
            if new != text:
                path.write_text(new)
                if path.parent.name == "specs":
                    own = re.search(rf"^use Rattle\.{path.parent.parent.name}\.proofs\..*", new, re.M)
                    if own:
                        print(f"port_split: {path}: a file of specs/ imports {own[0]}")
    for label, (old, new) in EDITS.items():
        path = pathlib.Path("tests/must-fail") / f"{label}.edit"
        text = path.read_text()
        if text.count(f"file: {old}\n") != 1:
            sys.exit(f"port_split: {path}: no file {old}")
        more = "old: {}\nnew: {}\n".format(*NAMES[label]) if label in NAMES else ""
        path.write_text(text.replace(f"file: {old}\n", f"file: {new}\n") + more)
    for name, pairs in PAGES.items():
        path = pathlib.Path(name)
        text = path.read_text()
        for old, new in pairs:
            if text.count(old) != 1:
                print(f"port_split: {name}: {text.count(old)} times: {old!r}")
            text = text.replace(old, new)
        path.write_text(text)


if __name__ == "__main__":
    main()
