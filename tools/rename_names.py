#!/usr/bin/env python3
"""Brings a repository's own antt names to today's spelling: snake_case for definitions, lemmas and fields, and a dash only between two names.

usage: rename_names.py [--check] [--docs] [--table FILE] REPOSITORY

It makes a table from the declarations of crates/*/specs and crates/*/proofs (answers to goals are left alone):
  isProcessLimit -> is_process_limit     OFFSET-MAX -> OFFSET_MAX     last-text -> last_text
  count-below-step -> count_below-step   (the first part is a definition's name, so the dash stays)
Where two names fall together, the lemma of proofs/ gets '_lem', as CONTRACT_STYLE.md says; two definitions are only reported.
Then it rewrites .antt files, the clauses and 'ghost use' lines of .rt files, must-fail edits, and with --docs the names between backticks of pages.
'look:' lines name a file in which the new name stood before, or a function with a parameter of that name (it would hide the word).
--check writes nothing. --table FILE writes the table: old, new, where. Commit first. Python 3.8 or later.
"""
import collections
import glob
import os
import re
import sys

ID = r"[^\s(){}.;,@\"\[\]λ]+"
DECL = re.compile(r"^((?:abbrev |unfoldable |pub |axiom |data |record |ruleset )*)(" + ID + r")(?= :\s| :$| where| =)(?:\s*:)?(.*)")
INNER = re.compile(r"^\s+(?:pub )?(" + ID + r") :\s")


# Names that the rules alone would make unreadable, or that would hide a word beside them: a field that says what a call leaves, or that numbers fit.
# The lemmas among them would have the name of a definition of a module block.
CHOSEN = {
    "below_in": "below_within",
    "best-chain": "best_chain_lem",
    "inOrder": "is_in_order",
    "in-row-limit": "within_row_limit",
    "map_first": "map_first_lem",
    "noPair": "no_pair",
    "no-pair": "no_pair_lem",
    "publish-at": "publish_at_lem",
    "put_last": "put_last_lem",
    "refresh-at": "refresh_at_lem",
    "view_in": "view_within",
    "run-at": "run_at_lem",
    "run_at": "run_at",
    "rows_left": "rows_after",
    "counts-left": "counts_after",
    "list_left": "list_after",
    "maps-left": "maps_after",
    "out-left": "out_after",
    "parts-left": "parts_after",
    "rows_fit": "rows_have_room",
    "rows_in": "rows_within",
    "target-in": "target_within",
    "x20-21": "x20_21",
    "x23-2B": "x23_2b",
    "x2D-7E": "x2d_7e",
}


def snake(n):
    n = re.sub(r"(?<=[a-z0-9])([A-Z]+)(?=$|[-_0-9])", lambda m: "_" + m.group(1).lower(), n)
    return re.sub(r"(?<=[a-z0-9])([A-Z])", lambda m: "_" + m.group(1).lower(), n)


def read(p):
    with open(p, encoding="utf-8") as f:
        return f.read()


def own(text):
    """Each top-level name with its modifiers and type, and the fields of records and data types."""
    block = None
    for l in text.split("\n"):
        if not l.strip() or l.lstrip().startswith("--"):
            continue
        if not l[0].isspace():
            block = "module" if l.startswith("module ") else None
            if l.startswith(("use ", "pub use ", "mod ", "pub mod ", "unfolding", "infix", "module", "open")):
                continue
            m = re.match(r"^(?:pub )?(?:record|data) (" + ID + r")(?=[\s:])", l)
            if m:
                block = m.group(1)
                yield m.group(1), "record ", "", False
                continue
            m = DECL.match(l)
            if m:
                if "record " in m.group(1) or "data " in m.group(1):
                    block = m.group(2)
                yield m.group(2), m.group(1), m.group(3), False
        elif block == "module":
            m = INNER.match(l)
            if m and len(l) - len(l.lstrip()) == 2:
                yield m.group(1), "", l[m.end():], False
        elif block:
            m = INNER.match(l)
            if m:
                yield m.group(1), "", "", True


def table(top):
    defs, lemmas, fields, every = {}, {}, set(), collections.defaultdict(set)
    for p in sorted(glob.glob(os.path.join(top, "crates/*/specs/**/*.antt"), recursive=True) + glob.glob(os.path.join(top, "crates/*/proofs/**/*.antt"), recursive=True)):
        if "/out/" in p or p.endswith(("/Invariants.antt",)):
            continue
        answers = os.path.basename(p) in ("Answers.antt", "Proof.antt")
        for n, mods, ty, field in own(read(p)):
            if ty.strip().startswith(("goal.", "tie.")) or n.endswith(("_spec", "-spec")):
                continue
            if field:
                fields.add(n)
            every[n].add(p)
            (defs if "/specs/" in p else lemmas).setdefault(n, p)
    known = {re.sub(r"[-]", "_", snake(n)) for n in defs}
    # a definition of proofs/ that is a function of its own counts as one too
    known |= {snake(n) for n in lemmas if "-" not in n}
    new = {}
    for n in every:
        if re.match(r"^[A-Z0-9]+([-_][A-Z0-9]+)+$", n):
            new[n] = n.replace("-", "_")
            continue
        if not re.match(r"^[a-z]", n):
            continue
        if "◌" in n:
            continue
        s = snake(n)
        if "-" in s:
            bits = s.split("-")
            # the longest first part that is a definition's name keeps its dash
            for k in range(len(bits) - 1, 0, -1):
                if "_".join(bits[:k]) in known and n in lemmas:
                    s = "_".join(bits[:k]) + "-" + "_".join(bits[k:])
                    break
            else:
                s = "_".join(bits)
        if s != n:
            new[n] = s
    new.update({n: snake(n) for n in inner(top)})
    new.update({n: s for n, s in CHOSEN.items()})
    by = collections.defaultdict(set)
    for n in every:
        by[new.get(n, n)].add(n)
    report = []
    for s, ns in sorted(by.items()):
        if len(ns) < 2:
            continue
        in_specs = [n for n in ns if n in defs]
        if len(in_specs) > 1:
            report.append(f"left: {', '.join(sorted(ns))} of specs/ would all be {s}")
        for n in ns:
            if n in lemmas and n not in defs and (in_specs or n != sorted(ns)[0]):
                want = s + "_lem"
                while want in by:
                    want += "_2"
                new[n] = want
                by[want].add(n)
                report.append(f"together: {', '.join(sorted(ns))} -> {s}: the lemma {n} is {want}")
    # a field that a word of the same file falls together with: in a record the field hides the word
    for n in sorted(fields):
        final = new.get(n, n)
        p = defs.get(n) or lemmas.get(n)
        words = [o for o in new if new[o] == final and o != n and o not in fields]
        if words and p:
            new[n] = final + "_fact"
            report.append(f"together: the field {n} of {p} hides the word {words[0]}: it is {new[n]}; look for steps of this name in proofs")
    return new, fields, defs, lemmas, report


def inner(top):
    """Names with a capital that are declared within a module block or a 'data', at any depth."""
    names = set()
    for p in glob.glob(os.path.join(top, "crates/*/specs/**/*.antt"), recursive=True) + glob.glob(os.path.join(top, "crates/*/proofs/**/*.antt"), recursive=True):
        for l in read(p).split("\n") if "/out/" not in p else []:
            m = re.match(r"^\s+(?:abbrev |unfoldable |opaque |pub )*([a-z][a-z0-9]*[A-Z][A-Za-z0-9]*) :(?:\s|$)", l)
            if m:
                names.add(m.group(1))
    return names


class Turn:
    def __init__(self, new, fields, crates):
        self.new, self.fields, self.crates = new, fields, crates
        self.tok = re.compile(r"--[^\n]*|\"(?:[^\"\\]|\\.)*\"|«[^»]*»|(\.?)(" + ID + ")")

    def antt(self, text):
        # names of a module that a file has under another name, as turns.next_row
        mods = [a for t, a in re.findall(r"(?m)^use (\S+) as (\S+)$", text) if not re.search(r"\.(Goals|Given|Tie|Lts|Reads|Code|Met|Kinds|Statement|View)$", t)]
        if mods:
            text = re.sub(r"(?<![\w.'-])(" + "|".join(map(re.escape, mods)) + r")\.(" + ID + r")", lambda m: m.group(1) + ".\x06" + self.new.get(m.group(2), m.group(2)), text)
        # a name that a file has from a library of the kit stays
        kit = {i.strip().split(" as ")[-1] for m, it in re.findall(r"(?m)^use (\S+?)\.\{(.*)\}$", text) if not any(m.startswith(f"Rattle.{c}.") for c in self.crates) for i in it.split(",")}

        def one(m):
            if m.group(2) is None:
                if m.group(0).startswith("--"):
                    return self.prose(m.group(0))
                return m.group(0)
            n = m.group(2)
            if n not in self.new or n in kit or (m.group(1) and n not in self.fields):
                return m.group(0)
            return m.group(1) + self.new[n]
        return self.tok.sub(one, text).replace("\x06", "")

    def prose(self, t):
        t = re.sub(r"(?<![\w-])[a-z]\w*[A-Z]\w*(?![\w-])", lambda m: self.new.get(m.group(0), m.group(0)), t)
        return re.sub(r"`([^`\s]+)`", lambda m: "`" + self.new.get(m.group(1), m.group(1)) + "`", t)

    def rt(self, text):
        out = []
        clause = False
        for l in text.split("\n"):
            s = l.lstrip()
            if s.startswith("//"):
                out.append(self.prose(l))
                continue
            if s.startswith(("ghost ", "requires", "ensures")):
                clause = True
            out.append(self.antt(l) if clause else l)
            if clause and (s.startswith("ghost use") and s.endswith(";") or s in ("{", "{}") or s.endswith("{}")):
                clause = False
            elif clause and s.startswith(("requires", "ensures")) is False and s.startswith("fn "):
                clause = False
        return "\n".join(out)


def main(argv):
    check = "--check" in argv
    docs = "--docs" in argv
    tab = argv[argv.index("--table") + 1] if "--table" in argv else None
    top = [a for i, a in enumerate(argv) if not a.startswith("--") and not (i and argv[i - 1] == "--table")][0]
    new, fields, defs, lemmas, report = table(top)
    t = Turn(new, fields, os.listdir(os.path.join(top, 'crates')))
    for l in report:
        print(l)
    if tab:
        with open(tab, "w", encoding="utf-8") as f:
            for n in sorted(new):
                f.write(f"{n}\t{new[n]}\t{defs.get(n) or lemmas.get(n)}\n")
    changed = 0
    for p in sorted(glob.glob(os.path.join(top, "crates/**/*"), recursive=True)):
        if "/out/" in p or not p.endswith((".antt", ".rt", ".edit")):
            continue
        old = read(p)
        if p.endswith(".antt"):
            u = t.antt(old)
        elif p.endswith(".rt"):
            u = t.rt(old)
            for m in re.finditer(r"fn (\w+)(?:<[^>]*>)?\(([^)]*)\)((?:[^{]|\{[^\n]*\}\n)*?)\n\{", u):
                ps = set(re.findall(r"(\w+)\s*:", m.group(2)))
                for n in set(re.findall(ID, m.group(3))) & ps & set(new.values()):
                    o = [x for x in new if new[x] == n and re.search(r"(?<![\w-])" + re.escape(x) + r"(?![\w-])", old)]
                    if o:
                        print(f"look: {p}: {m.group(1)} has a parameter {n}, which would hide the word that was {o[0]}")
        else:
            antt = re.search(r"(?m)^file: .*\.antt", old)
            lines = []
            for l in old.split("\n"):
                if l.startswith(("old: ", "new: ")):
                    lines.append(l[:5] + (t.antt(l[5:]) if antt or re.match(r"^\s*(requires|ensures|ghost)", l[5:]) else t.prose(l[5:]) if l[5:].lstrip().startswith("//") else l[5:]))
                else:
                    lines.append(l)
            u = "\n".join(lines)
        if u != old:
            toks = set(re.findall(ID, old))
            for o in set(re.findall(ID, old)) & set(new):
                if new[o] in toks and new[o] != o:
                    print(f"look: {p}: {new[o]} stood there before {o} became it")
            changed += 1
            if not check:
                with open(p, "w", encoding="utf-8") as f:
                    f.write(u)
    for p in glob.glob(os.path.join(top, "**/*.md"), recursive=True) if docs else []:
        old = read(p)
        u = re.sub(r"`([^`\n]+)`", lambda m: "`" + re.sub(r"(?<![\w-])[\w-]+(?![\w-])", lambda k: new.get(k.group(0), k.group(0)), m.group(1)) + "`", old)
        if u != old:
            changed += 1
            if not check:
                with open(p, "w", encoding="utf-8") as f:
                    f.write(u)
    print(f"{len(new)} names, {changed} files")


if __name__ == "__main__":
    main(sys.argv[1:])
