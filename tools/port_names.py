#!/usr/bin/env python3
"""Respell the repository's own antt names in snake case: `planeSize` and `run-next` become `plane_size` and `run_next`.

Run once, with no arguments, at the top of the repository. A second run changes nothing.
Names of the kit's libraries, generated names, Rust names and strings keep their spelling.
Writes the names that it changed to tools/port_names.tsv, and says what it left. With --dry it writes nothing.
"""
import collections
import os
import re
import subprocess
import sys

# (old name, module that declares it): the new name where plain snake case would be that of a definition, a constructor or a kit's word
# in a file that uses both: the lemma gives way.
TABLE = {
    ('body_bytes', 'Rattle.fused_answer.specs.Bodies'): 'body_bytes_lem',
    ('by-half', 'Rattle.worked_offset.specs.Worked'): 'by_half_lem',
    ('by_two', 'Rattle.worked_offset.specs.Worked'): 'by_two_lem',
    ('cell-counts', 'Rattle.room.specs.Laws'): 'cell_counts_lem',
    ('cell-layout', 'Rattle.solid_leaves.specs.Unpacked'): 'cell_layout_lem',
    ('cells-counts', 'Rattle.list_lent.specs.Lying'): 'cells_counts_lem',
    ('cells-sizes', 'Rattle.list_lent.specs.Lying'): 'cells_sizes_lem',
    ('cut-at', 'Rattle.worked.specs.Worked'): 'cut_at_lem',
    ('ear-by', 'Rattle.mesh.specs.Laws'): 'ear_by_lem',
    ('faces-to', 'Rattle.writer.specs.Laws'): 'faces_to_lem',
    ('facet-at', 'Rattle.interfaces.specs.Facets'): 'facet_at_lem',
    ('facet-end', 'Rattle.numbered.specs.Reading'): 'facet_end_lem',
    ('facets-of', 'Rattle.fuse_list.specs.Laws'): 'facets_of_lem',
    ('fair-point', 'Rattle.tube_domain.specs.Domain'): 'fair_point_lem',
    ('first-corner', 'Rattle.volume.specs.Shell'): 'first_corner_lem',
    ('first-of', 'Rattle.ring.specs.Laws'): 'first_of_lem',
    ('inverse-of', 'Rattle.interval.proofs.Laws'): 'inverse_of_lem',
    ('is-edge', 'Rattle.topology.specs.Chains'): 'is_edge_lem',
    ('is-nan', 'Rattle.float.proofs.Facts'): 'is_nan_lem',
    ('last-by', 'Rattle.mesh.specs.Laws'): 'last_by_lem',
    ('last-in', 'Rattle.mesh.specs.Laws'): 'last_in_lem',
    ('number-of', 'Rattle.solid_leaves.specs.Unpacked'): 'number_of_lem',
    ('outer-first', 'Rattle.bodies.specs.Cases'): 'outer_first_lem',
    ('pair-at', 'Rattle.simple.specs.Laws'): 'pair_at_lem',
    ('point-of', 'Rattle.room.specs.Laws'): 'point_of_lem',
    ('records-to', 'Rattle.writer.specs.Laws'): 'records_to_lem',
    ('sign-bit', 'Rattle.float.proofs.Facts'): 'sign_bit_lem',
    ('solid-to', 'Rattle.writer.specs.Laws'): 'solid_to_lem',
    ('square-ends', 'Rattle.interval.proofs.Inclusion'): 'square_ends_lem',
    ('told_of', 'Rattle.ended.specs.Laws'): 'told_of_lem',
    ('turn_by', 'Rattle.exact.proofs.Signs'): 'turn_by_lem',
}
# Binders that a renamed definition would hide or be hidden by: file -> {old: new}
BINDERS = {
}

DELIM = set(' \t\r\n(){}[];,."`|')
WORD = re.compile(r"[^\W\d][\w'\-]*\Z")
RESERVED = set('as in data open record ruleset let elim use module where abbrev pub unfolding unfoldable search omega cc rw simp '
               'grind assumption hlevel refine by with postulate private infix Type'.split())


def snake(name):
    if "-" in name and name.replace('-', '') == '':
        return name
    out = []
    for seg in re.split(r'[-_]', name):
        if seg[:1].islower():
            seg = re.sub(r"([a-z0-9'₀-₉])([A-Z])", r'\1_\2', seg)
            seg = re.sub(r'([A-Z])([A-Z][a-z])', r'\1_\2', seg).lower() if re.search('[A-Z]', seg) else seg
        out.append(seg)
    return '_'.join(out)


def odd(name):
    return WORD.match(name) and snake(name) != name


def tokens(text, lang):
    """(start, end, kind) of names, with strings left out; kind: 'n' a name, 'c' a name in backticks in a comment."""
    i, n = 0, len(text)
    out = []
    dash = '--' if lang == 'antt' else '//'
    while i < n:
        ch = text[i]
        if ch == '"':
            j = i + 1
            while j < n and text[j] != '"':
                j += 2 if text[j] == '\\' else 1
            i = j + 1
        elif text.startswith(dash, i) and (i == 0 or text[i - 1] in ' \t\n(') and (lang != 'antt' or i + 2 >= n or text[i + 2] in ' -\n'):
            j = text.find('\n', i)
            j = n if j < 0 else j
            for m in re.finditer(r'`([^`\n]*)`', text[i:j]):
                k, e = i + m.start(1), i + m.end(1)
                while k < e:
                    if text[k] in DELIM:
                        k += 1
                        continue
                    s = k
                    while k < e and text[k] not in DELIM:
                        k += 1
                    out.append((s, k, 'c'))
            i = j
        elif ch in DELIM:
            i += 1
        elif lang == 'rt' and ch == "'" and i + 2 < n and (text[i + 2] == "'" or text[i + 1] == '\\'):
            i = text.find("'", i + 2) + 1
        else:
            j = i
            while j < n and text[j] not in DELIM:
                j += 1
            a, b = i, j
            if lang == 'rt':
                while a < b and text[a] in '&*!-:#<>=':
                    a += 1
                while b > a and text[b - 1] in ':<>=':
                    b -= 1
            if a < b:
                out.append((a, b, 'n'))
            i = j
    return out


USE = re.compile(r'^[ \t]*(?:pub[ \t]+|ghost[ \t]+|abbrev[ \t]+|unfoldable[ \t]+)*use[ \t]+([^\s{;]+?)(\.\{([^}]*)\}|[ \t]+as[ \t]+([^\s;]+)|)[ \t]*;?[ \t]*(?=$|--)', re.M)


class File:
    def __init__(self, path, text, lang):
        self.path, self.text, self.lang = path, text, lang
        parts = path.split('/')
        self.crate = parts[1] if parts[0] == 'crates' else None
        self.module = None
        if path.endswith('.antt'):
            self.module = 'Rattle.' + '.'.join(parts[1:])[:-5]
        self.answers = '/proofs/' in path and len(parts) == 5
        self.imports = {}    # name here -> (module, name there)
        self.alias = {}      # name here -> module
        self.twice = set()
        self.opened = []
        self.spans = []      # spans of the paths in use lines
        for m in USE.finditer(text):
            mod = m.group(1)
            self.spans.append((m.start(1), m.end(1)))
            if m.group(3) is not None:
                for item in m.group(3).split(','):
                    w = item.split()
                    if not w:
                        continue
                    here = w[2] if len(w) == 3 and w[1] == 'as' else w[0]
                    if here in self.imports and self.imports[here] != (mod, w[0]):
                        self.twice.add(here)
                    self.imports[here] = (mod, w[0])
            elif m.group(4):
                self.alias[m.group(4)] = mod
            else:
                self.alias[mod.split('.')[-1]] = mod
                self.opened.append(mod)
        self.decls = {}      # name -> kind
        self.fields = set()
        self.top = []
        self.kept = set()
        if path.endswith('.antt'):
            self.scan()

    def scan(self):
        stack = []           # (indent of the head, what)
        head = None          # a head of several lines
        for line in self.text.split('\n'):
            s = line.strip()
            if not s or s.startswith('--'):
                continue
            ind = len(line) - len(line.lstrip())
            while stack and ind <= stack[-1][0]:
                stack.pop()
            if head:
                if re.search(r'\bwhere$', s):
                    stack.append(head)
                    head = None
                continue
            w = s.split()
            kind = 'lemma'
            while w and w[0] in ('pub', 'abbrev', 'unfoldable', 'private'):
                if w[0] in ('abbrev', 'unfoldable'):
                    kind = 'definition'
                w.pop(0)
            if not w:
                continue
            if w[0] in ('record', 'data') and len(w) > 1 and w[1] not in '{' and w[-1] == 'where':
                self.decls[w[1]] = w[0]
                stack.append((ind, w[0]))
                continue
            if w[0] in ('record', 'data', 'module') and len(w) > 2 and w[1][:1] not in '{' and not re.search(r'\bwhere\b', s):
                if w[0] != 'module':
                    self.decls[w[1]] = w[0]
                head = (ind, w[0])
                continue
            if w[0] == 'module' and s.endswith('where'):
                stack.append((ind, 'module'))
                continue
            if w[0] in ('where', ):
                stack.append((ind, 'where'))
                if len(w) > 1:
                    m = re.match(r'where\s+(\S+)(?:\s+\{[^}]*\})*\s+:\s', s)
                    if m:
                        self.decls.setdefault(m.group(1), 'local')
                continue
            if s.endswith(' where'):
                stack.append((ind, 'where'))
            m = re.match(r'((?:[^\s(){}\[\];,."|:=]+\s+)+?)(?:\{[^}]*\}\s*)*:(?:\s|$)', ' '.join(w) + ' ')
            if not m or w[0] in ('use', 'let', 'in', 'λ', 'unfolding', '|', '(', 'elim', '→', '∙', '×', 'rw'):
                continue
            ctx = stack[-1][1] if stack else 'top'
            names = m.group(1).split()
            if ctx == 'record':
                for x in names:
                    self.fields.add(x)
                continue
            if ctx == 'data':
                for x in names:
                    self.decls[x] = 'constructor'
                continue
            if len(names) != 1:
                continue
            x = names[0]
            if ctx in ('top', 'module'):
                if x in self.decls and self.decls[x] != 'local':
                    said('declared twice in', self.path, x)
                self.decls[x] = kind
                self.top.append(x)
                rest = s[s.index(':') + 1:].strip()
                if self.answers and (ind == 0) and (re.search(r'\btie\.', s) or re.match(r'(invariant|decreases)[-_]loop', x)
                                    or re.search(r'[-_]spec$', x) or not self.path.endswith('/Proof.antt') or re.search(r'\bstatement\b', rest)):
                    self.kept.add(x)
            elif ctx == 'where':
                self.decls.setdefault(x, 'local')


SAID = []


def said(*a):
    SAID.append(' '.join(str(x) for x in a))


def read(p):
    with open(p, encoding='utf-8') as f:
        return f.read()


def main():
    ls = subprocess.run(['git', 'ls-files'], capture_output=True, text=True, check=True).stdout.split('\n')
    own = {p.split('/')[1] for p in ls if p.startswith('crates/')}

    def is_own(mod):
        w = mod.split('.')
        return len(w) > 2 and w[0] == 'Rattle' and w[1] in own
    antt = [p for p in ls if re.match(r'crates/[^/]+/(specs|proofs)/.*\.antt$', p)]
    rts = [p for p in ls if re.match(r'crates/[^/]+/src/.*\.rt$', p)]
    edits = [p for p in ls if re.match(r'(crates/[^/]+/must-fail|tests/must-fail/[^/]+)/[^/]+\.edit$', p)]
    docs = [p for p in ls if p == 'README.md' or re.match(r'docs/(?!0[12])[^/]+\.md$', p) or p.startswith('tests/contracts')]
    files = {p: File(p, read(p), 'antt') for p in antt}
    mods = {f.module: f for f in files.values()}
    rtf = {p: File(p, read(p), 'rt') for p in rts}
    fields = set()
    for f in files.values():
        fields |= f.fields

    plain = {snake(x) for x in fields}

    def origin(mod, name, seen=()):
        """The module that declares the name, through `pub use`."""
        f = mods.get(mod)
        if not f or name in f.decls or mod in seen:
            return mod, name
        if name in f.imports:
            m, n = f.imports[name]
            return origin(m, n, seen + (mod,))
        return mod, name

    def new_of(mod, name):
        mod, name = origin(mod, name)
        return TABLE.get((name, mod)) or TABLE.get((name, None)) or snake(name)

    def needs(mod, name):
        return WORD.match(name) and new_of(mod, name) != name

    used = collections.Counter()
    rows = {}

    def resolve(f, name, start, end, text):
        """The new spelling of a name that no dot comes before, in an antt file."""
        if name in BINDERS.get(f.path, {}):
            return BINDERS[f.path][name]
        if name in f.kept:
            return name
        if name in f.imports:
            mod, there = f.imports[name]
            if not is_own(mod):
                # a kit's name, but where it is a field's in a record that is written
                return name
            if there != name:
                return snake(name) if odd(name) else name
            return new_of(mod, name) if WORD.match(name) else name
        if name in f.decls and f.decls[name] != 'local':
            return new_of(f.module, name) if WORD.match(name) else name
        if f.opened and not (name in f.fields):
            if odd(name):
                said('opened', f.path, name)
        if odd(name):
            if name not in f.fields and name not in f.decls:
                said('bare', f.path, name, 'FIELD' if name in fields else '')
            return snake(name)
        return name

    def rewrite(f, text, lang, clause=False):
        """The text with its names respelled; the pairs that were changed."""
        out, last = [], 0
        pairs = collections.defaultdict(set)
        uses = [(m.start(), m.end(), m.group(1), m.start(2), m.group(3)) for m in USE.finditer(text)]
        toks = tokens(text, lang)
        ui = 0
        for s, e, kind in toks:
            name = text[s:e]
            while ui < len(uses) and uses[ui][1] <= s:
                ui += 1
            new = name
            if ui < len(uses) and uses[ui][0] <= s < uses[ui][1]:
                u = uses[ui]
                if u[4] is None or s < u[3]:
                    continue            # a path
                if is_own(u[2]) and WORD.match(name) and name != 'as':
                    # the name there, or the name here after `as`
                    before = text[u[3]:s].rstrip()
                    if re.search(r'\bas$', before):
                        new = snake(name)
                    else:
                        new = new_of(u[2], name)
                        if mods.get(u[2]) is None:
                            new = name
                elif not is_own(u[2]) and re.search(r'\bas$', text[u[3]:s].rstrip()):
                    new = snake(name) if odd(name) else name
                else:
                    pairs[name].add(name)
                    continue
                pairs[new].add(name)
            elif not WORD.match(name):
                continue
            elif s > 0 and text[s - 1] == '.':
                # after a dot
                k = s - 1
                while k > 0 and text[k - 1] not in DELIM:
                    k -= 1
                head = text[k:s - 1]
                dotted = k > 0 and text[k - 1] == '.'
                if head in f.alias and not dotted:
                    mod = f.alias[head]
                    if is_own(mod) and mod in mods:
                        new = new_of(mod, name)
                    elif is_own(mod) and odd(name):
                        said('generated', f.path, head + '.' + name)
                elif head in f.imports and not dotted and head[:1].isupper() and odd(name) and name not in fields:
                    said('after an imported', f.path, head + '.' + name)
                elif name in fields and lang == 'antt':
                    new = TABLE.get((name, 'field')) or snake(name)
                    if new != name and f.answers and generated(text, s, e, head, name):
                        said('field or generated? left', f.path, text[max(0, s - 40):e + 20].replace('\n', ' '))
                        new = name
                elif name in fields:
                    new = TABLE.get((name, 'field')) or snake(name)
                elif re.search('[A-Z]', name[1:]) and re.sub('-', '_', name).lower() in plain and not f.answers:
                    new = re.sub('-', '_', name).lower()    # the port's script took it for a kit's word
                    said('mended after a dot', f.path, name, new)
                elif odd(name):
                    said('after a dot', f.path, head + '.' + name)
                if new != name:
                    rows.setdefault((name, new, 'field' if head not in f.alias else 'name'), f.path)
            elif lang == 'antt':
                new = resolve(f, name, s, e, text)
                if kind == 'c':
                    if name in f.imports or name in f.decls:
                        pass
                    elif name in ALL and len(ALL[name]) == 1:
                        new = list(ALL[name])[0]
                    elif name in fields:
                        new = snake(name)
                    elif odd(name) and name[:1].islower() and snake(name) in NEW:
                        new = snake(name)
                    else:
                        new = name
                else:
                    pairs[new].add(name)
            else:
                # Rust: only names that a ghost use imports from an own module, and own fields in a record that is written
                if name in f.imports:
                    mod, there = f.imports[name]
                    if is_own(mod) and mod in mods and there == name:
                        new = new_of(mod, name)
                    elif is_own(mod) and mod in mods:
                        new = snake(name)
                elif kind == 'c' and odd(name) and name in ALL and len(ALL[name]) == 1:
                    new = list(ALL[name])[0]
                elif kind == 'c' and odd(name) and name[:1].islower() and name not in ALL and snake(name) in NEW:
                    new = snake(name)
                elif name in fields and odd(name) and '-' not in name:
                    new = snake(name)
                elif odd(name) and not re.match(r"[A-Z]", name):
                    said('rt', f.path, name)
                if kind == 'n':
                    pairs[new].add(name)
            if new != name:
                used[name] += 1
                out.append(text[last:s])
                out.append(new)
                last = e
        out.append(text[last:])
        return ''.join(out), pairs

    def generated(text, s, e, head, name):
        return bool(re.match(r'\.(ensures|requires|result|args|true|false|before|loop|entry|exit)\b', text[e:e + 12])) or head in ('before', 'c', 'κs')

    # every own declared name -> its new spellings
    ALL = collections.defaultdict(set)
    for f in files.values():
        for x, kind in f.decls.items():
            if kind != 'local' and x not in f.kept:
                ALL[x].add(new_of(f.module, x))
    for x in fields:
        ALL[x].add(snake(x))
    NEW = {x for v in ALL.values() for x in v}

    def binder(text, olds):
        """A Rust function of the same name is no clash: the kit's own crates have such pairs. A parameter or a local is one."""
        return any(re.search(r"\b(let|mut|for)\s+%s\b|[(,|]\s*(mut\s+)?%s\s*[:|,](?!:)|\b%s\s*=>|\b(const|static)\s+%s\b" % ((re.escape(o),) * 4), text)
                   for o in olds if not odd(o))

    done = {}
    clash = []
    for f in list(files.values()) + list(rtf.values()):
        for x, (mod, there) in sorted(f.imports.items()):
            if mod in mods and origin(mod, there)[1] not in mods.get(origin(mod, there)[0], f).decls:
                said('import of nothing', f.path, mod, there)
            if is_own(mod) and mod not in mods and odd(there):
                said('generated import', f.path, mod, there)
        if f.twice:
            said('imported twice', f.path, *sorted(f.twice))
    for p, f in list(files.items()) + list(rtf.items()):
        new, pairs = rewrite(f, f.text, f.lang)
        done[p] = new
        for x, olds in sorted(pairs.items()):
            if len(olds) > 1 and (f.module or binder(f.text, olds)):
                clash.append((p, x, tuple(sorted(olds))))
                if f.module:
                    for o in sorted(olds):
                        mod, there = origin(*f.imports[o]) if o in f.imports else (f.module, o)
                        g = mods.get(mod)
                        said('WHO', p, o, there, mod, g.decls.get(there) if g else 'kit')
            if x in RESERVED and olds != {x}:
                clash.append((p, x, ('reserved',) + tuple(olds)))
        if f.module:
            low = collections.defaultdict(set)
            for x in f.decls:
                if f.decls[x] != 'local':
                    low[(x if x in f.kept or not WORD.match(x) else new_of(f.module, x)).lower()].add(x)
            for x in f.fields:
                pass
            for k, v in low.items():
                if len(v) > 1 and len({x.lower() for x in v}) > 1:
                    clash.append((p, k, ('case',) + tuple(sorted(v))))
    for c in clash:
        said('CLASH', *c)

    def tight(x):
        x = x.replace('′', "'").replace('Inv-', 'invariant-').replace('μ-', 'decreases-')
        x = re.sub(r"(?<=[\w')]) \.(?=[^\W_])", '.', x)
        x = re.sub(r'([\w.]) \.(\d)', r'\1.\2', x)
        return x

    def bare(x):
        y = None
        x = tight(x)
        while y != x:
            y, x = x, re.sub(r"\(([^\W\d][\w'\-]*(?:\.[\w'\-]+)+)\)", r'\1', x)
        return x

    def unbracketed(x):
        return re.sub(r'⌜ | ⌝', '', bare(x))

    ways = [lambda x: x, tight, bare, unbracketed]

    # the edits: antt text of the file that they name
    def edit(p):
        text = read(p)
        parts = p.split('/')
        crate = parts[1] if parts[0] == 'crates' else parts[2]
        lines = text.split('\n')
        target = now = None
        out = []
        for l in lines:
            m = re.match(r'(file|old|new):( ?)(.*)$', l)
            if not m:
                out.append(l)
                continue
            if m.group(1) == 'file':
                t = m.group(3).strip()
                cand = [t, 'crates/%s/%s' % (crate, t)]
                target = None
                for c in cand:
                    c = os.path.normpath(c)
                    target = target or files.get(c) or rtf.get(c)
                if not target:
                    said('edit: no file', p, t)
                out.append(l)
            elif target:
                way = ways[0]
                if m.group(1) == 'old':
                    # the first way of reading the line by which it stands in its file; later lines of the block follow it
                    for w in ways:
                        if done[target.path].count(rewrite(target, w(m.group(3)), target.lang)[0]) == 1:
                            way = w
                            break
                    else:
                        way = None
                        said('edit: old does not stand', p, target.path, rewrite(target, m.group(3), target.lang)[0])
                    now = way
                else:
                    way = now
                a, _ = rewrite(target, (way or ways[0])(m.group(3)), target.lang)
                out.append(m.group(1) + ':' + m.group(2) + a)
            else:
                out.append(l)
        return '\n'.join(out)

    def doc(p):
        text = read(p)

        def name(m):
            x = m.group(0)
            if odd(x) and x in ALL and len(ALL[x]) == 1:
                return list(ALL[x])[0]
            if odd(x) and x in ALL:
                said('doc: two spellings', p, x)
            elif odd(x) and x[:1].islower() and snake(x) in NEW:
                said('doc: port.py respelled', p, x)
                return snake(x)     # the port's script had respelled it in the sources alone
            return x
        if p.endswith('.md'):
            fence = False
            out = []
            for l in text.split('\n'):
                if l.lstrip().startswith('```'):
                    fence = not fence
                elif fence:
                    l = re.sub(r"(?<![\w'\-/])[^\W\d][\w'\-]*(?![\w'/\-])(?!\()", name, l)
                else:
                    l = re.sub(r'`[^`]*`', lambda q: re.sub(r"(?<![\w'\-/])[^\W\d][\w'\-]*(?![\w'/\-])", name, q.group(0)), l)
                out.append(l)
            return '\n'.join(out)
        return re.sub(r"(?<![\w'\-/])[^\W\d][\w'\-]*(?![\w'/\-])", name, text)

    for p in edits:
        done[p] = edit(p)
    for p in docs:
        try:
            done[p] = doc(p)
        except UnicodeDecodeError:
            pass

    for f in files.values():
        for x, kind in list(f.decls.items()) + [(x, 'field') for x in f.fields]:
            if x in f.kept or not WORD.match(x):
                continue
            new = snake(x) if kind in ('local', 'field') else new_of(f.module, x)
            if x in BINDERS.get(f.path, {}):
                new = BINDERS[f.path][x]
            if new != x:
                rows[(x, new, kind, f.module)] = f.path
    lines = sorted('\t'.join((k[0], k[1], k[2], k[3])) for k in rows if len(k) == 4)
    changed = 0
    for p, t in done.items():
        if t != read(p):
            changed += 1
            if '--dry' not in sys.argv:
                with open(p, 'w', encoding='utf-8', newline='') as h:
                    h.write(t)
    print('\n'.join(SAID))
    if lines and '--dry' not in sys.argv:
        with open('tools/port_names.tsv', 'w') as h:
            h.write('\n'.join(lines) + '\n')
    print('%d names, %d files, %d clashes' % (len(lines), changed, len(clash)))


main()
