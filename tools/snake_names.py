#!/usr/bin/env python3
"""Turns the repository's own definitions and lemmas to snake case, in definitions, proofs, contracts, must-fail edits and the pages.

usage: tools/snake_names.py            at the top, once, right after port.py: it writes in place
       tools/snake_names.py --check    writes nothing; says which names would change, and which would fall together

A name of specs/ or proofs/ that has a dash or a capital inside becomes one in snake case: `cut-keeps-all` is `cut_keeps_all`, `brokenRule` is
`broken_rule`. A name that begins with a capital stays, and so do functions and types of src/, exported names, strings, names that a file imports
from the library, and the names that Rattle makes (behind a dot, where no record of the repository has such a field).
"""
import os
import re
import sys

TOKEN = re.compile(r"[^\s(){}\[\];,.λ`\"]+")
OWN = re.compile(r"[a-z][A-Za-z0-9_'·′₀-₉-]*$")
# One name in two spellings would become one: the second gets another name.
OTHERWISE = {
    "after-cached": "after_cached_lem", "answer-of": "answer_of_lem", "at-most": "at_most_lem", "corner-in": "corner_in_lem",
    "dot-right": "dot_right_lem", "edge-in-range": "edge_in_range_lem", "edge-long": "edge_long_lem", "edge-of-a": "edge_of_a_lem",
    "empty-contact": "empty_contact_lem", "ends-apart": "ends_apart_lem", "face-a": "face_a_lem", "face-b": "face_b_lem",
    "face-edge": "face_edge_lem", "face-ring": "face_ring_lem", "first-half": "first_half_lem", "first-turn": "first_turn_lem",
    "flipped-answer": "flipped_answer_lem", "frame-answer": "frame_answer_lem", "frame-call": "frame_call_lem", "if-touching": "if_touching_lem",
    "in-box": "in_box_lem", "is-inf": "is_inf_lem", "is-nan": "is_nan_lem", "is-zero": "is_zero_lem", "least-lanes": "least_lanes_lem",
    "line-told": "line_told_lem", "linked-at": "linked_at_lem", "of-bits": "of_bits_lem", "plane-right": "plane_right_lem",
    "planes-from": "planes_from_lem", "point-of": "point_of_lem", "root-of": "root_of_lem", "rule-at": "rule_at_lem", "tries-edge": "tries_edge_lem",
    "twins-at": "twins_at_lem", "vector-in": "vector_in_lem", "vertex-at": "vertex_at_lem", "vertex-edge": "vertex_edge_lem",
}


def snake(name):
    if name in OTHERWISE:
        return OTHERWISE[name]
    name = name.replace("NaN", "Nan").replace("·", "_").replace("′", "'")
    name = re.sub(r"([a-z0-9])([A-Z])", r"\1_\2", name)
    name = re.sub(r"([A-Z])([A-Z][a-z])", r"\1_\2", name)
    return re.sub(r"-+", "_", name).lower()


def is_old(name):
    return bool(OWN.match(name)) and snake(name) != name and not name.endswith("-") and "--" not in name


def files(*endings):
    for top in ("crates",):
        for folder, dirs, names in os.walk(top):
            dirs[:] = sorted(d for d in dirs if d != "out")
            for name in sorted(names):
                if name.endswith(endings):
                    yield os.path.join(folder, name)


def read(path):
    with open(path, encoding="utf-8") as f:
        return f.read()


def parted(line):
    """The code of a line of antt, and its comment."""
    at = re.search(r"(?:(?<=\s)|^)--(?=\s|$)", line)
    return (line[: at.start()], line[at.start():]) if at else (line, "")


CRATES = {c for c in os.listdir("crates")}


def imported(text):
    """What a file imports from the library: names by the spelling that the file uses."""
    found = set()
    for module, items in re.findall(r"(?m)^\s*(?:ghost |pub )?use ([\w.'·-]+)\.\{([^}]*)\}", text):
        parts = module.split(".")
        if parts[0] == "Rattle" and len(parts) > 1 and parts[1] in CRATES:
            continue
        for item in items.split(","):
            found.add(item.split(" as ")[-1].strip())
            found.add(item.split(" as ")[0].strip())
    return found


def own_names(walks):
    """Every name that a file of specs/ or proofs/ declares: items, fields, constructors, and what stands in a `where`. `walks`: a Proof.antt too."""
    found = set()
    for path in files(".antt"):
        if path.endswith("/Proof.antt") and not walks:
            continue
        for line in read(path).split("\n"):
            code, _ = parted(line)
            m = re.match(r"\s*(?:(?:pub|abbrev|unfoldable) )*([^\s(){}\[\];,.:]+) :( |$)", code)
            if m:
                found.add(m.group(1))
            # fields on one line, `record { a = ..; b-c = .. }`
            found.update(re.findall(r"[{;] *([a-z][\w'·-]*) [:=] ", code))
    return found


def turn_code(code, names, away, walk, said):
    """The tokens of a piece of antt, turned. `walk`: the file follows the code, and what stands behind a dot may be a name that Rattle made."""

    def one(m):
        token, before = m.group(0), code[: m.start()]
        if not is_old(token) or token in away:
            return token
        if before.endswith("."):
            # a field or an item of a module
            if token not in names:
                return token
            if walk and (token not in SHARED or re.search(r"(?:^|[\s(,{])(?:tie|code|goal)\.$", before)):
                return token
        said.setdefault(token, set()).add(snake(token))
        return snake(token)

    return TOKEN.sub(one, code)


def turn_words(text, names, said):
    """A comment or a page: names in camel case wherever they stand, names with a dash between backticks."""

    def camel(m):
        token = m.group(0)
        if token in names and re.search(r"[a-z0-9][A-Z]", token):
            return snake(token)
        return token

    text = re.sub(r"(?<![\w.'-])[a-z][A-Za-z0-9]*[A-Z][A-Za-z0-9]*(?![\w'-]*::)(?![\w-])", camel, text)
    return re.sub(r"`([a-z][\w'-]*)`", lambda m: "`" + (snake(m.group(1)) if m.group(1) in names and "-" in m.group(1) else m.group(1)) + "`", text)


def turn_antt(path, names, said):
    text = read(path)
    away = imported(text)
    walk = path.endswith("/Proof.antt")
    out = []
    for line in text.split("\n"):
        code, comment = parted(line)
        out.append(turn_code(code, names, away, walk, said) + turn_words(comment, names, said))
    return "\n".join(out)


RUST = re.compile(r'"(?:[^"\\]|\\.)*"|//[^\n]*')


def turn_rt(path, names, said):
    text = read(path)
    away = imported(text)
    out, last = [], 0

    def code(piece):
        # A name in a clause: no code of Rust has a dash inside a word or a capital inside a word that begins small.
        def one(m):
            token = m.group(0)
            if is_old(token) and token in names and token not in away:
                said.setdefault(token, set()).add(snake(token))
                return snake(token)
            return token

        return re.sub(r"(?<![\w'-])[a-z][\w'′·-]*", one, piece)

    for m in RUST.finditer(text):
        out.append(code(text[last: m.start()]))
        it = m.group(0)
        out.append(turn_words(it, names, said) if it.startswith("//") else it)
        last = m.end()
    out.append(code(text[last:]))
    return "".join(out)


def turn_edit(path, names, said):
    """The texts of an edit stand in files that port.py and this script turned; what it said of the edit's sense stays."""
    out = []
    for line in read(path).split("\n"):
        m = re.match(r"(old|new): (.*)$", line)
        if not m:
            out.append(turn_words(line, names, said))
            continue

        def one(t):
            token = t.group(0)
            return snake(token) if is_old(token) and (token in names or snake(token) in NEW) else token

        out.append(m.group(1) + ": " + TOKEN.sub(one, m.group(2)))
    return "\n".join(out)


NEW = set()
SHARED = set()


def main(argv):
    check = argv == ["--check"]
    if argv and not check:
        print(__doc__)
        return 2
    names = own_names(True)
    SHARED.update(own_names(False))
    old = {n for n in names if is_old(n)}
    NEW.update(snake(n) if is_old(n) else n for n in names)
    said, writes = {}, []
    for path in files(".antt"):
        writes.append((path, turn_antt(path, names, said)))
    for path in files(".rt"):
        writes.append((path, turn_rt(path, names, said)))
    for path in files(".edit"):
        writes.append((path, turn_edit(path, names, said)))
    pages = ["README.md", "CHANGELOG.md"] + sorted(os.path.join("docs", f) for f in os.listdir("docs") if f.endswith(".md") and not f.startswith("PORT"))
    both = old | {n for n in said}
    for path in pages:
        text = read(path)
        wider = both | {n for n in re.findall(r"`([a-z][\w'-]*)`", text) if is_old(n) and snake(n) in NEW}
        wider |= {n for n in re.findall(r"[a-z][A-Za-z0-9]*[A-Z][A-Za-z0-9]*", text) if snake(n) in NEW}
        writes.append((path, turn_words(text, wider, said)))
    # names that fall together: in one file two spellings become one
    bad = 0
    for path, _ in [w for w in writes if w[0].endswith((".antt", ".rt"))]:
        tokens = set()
        for line in read(path).split("\n"):
            tokens |= set(TOKEN.findall(parted(line)[0] if path.endswith(".antt") else line.split("//")[0]))
        by = {}
        away = imported(read(path))
        for t in tokens:
            if OWN.match(t):
                by.setdefault(t if t in away else snake(t), set()).add(t)
        for to, group in sorted(by.items()):
            if len(group) > 1:
                bad += 1
                print(f"falls together in {path}: {', '.join(sorted(group))}")
    if check:
        for n in sorted(said):
            print(n, "->", snake(n))
    else:
        for path, text in writes:
            if text != read(path):
                with open(path, "w", encoding="utf-8") as f:
                    f.write(text)
    print(f"{len(said)} names turned, {bad} fall together")
    return 0


if __name__ == "__main__":
    raise SystemExit(main(sys.argv[1:]))
