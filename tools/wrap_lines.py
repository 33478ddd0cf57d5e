#!/usr/bin/env python3
"""Breaks the lines of .antt files that are longer than 160 characters: tools/wrap_lines.py [FILE]..   (no FILE: every one below crates/)

A list of imports becomes two lines, a comment goes on below, and anything else is broken at a space, as little inside brackets as may be.
"""
import os
import re
import sys

MOST = 160


def depth_at(line):
    """The depth of brackets before each character."""
    found, depth = [], 0
    for it in line:
        if it in ")}]":
            depth -= 1
        found.append(depth)
        if it in "({[":
            depth += 1
    return found


def broken(line):
    if len(line) <= MOST:
        return [line]
    indent = line[: len(line) - len(line.lstrip())]
    use = re.fullmatch(r"(\s*(?:pub )?(?:use|open) [^{]*\{)(.*)\}", line)
    if use:
        names, kept = use.group(2).split(", "), []
        while names and len(use.group(1) + ", ".join([*kept, names[0]]) + "}") <= MOST:
            kept.append(names.pop(0))
        return [use.group(1) + ", ".join(kept) + "}", *broken(use.group(1) + ", ".join(names) + "}")]
    if line.lstrip().startswith("--"):
        cut = line.rfind(" ", 0, MOST)
        return [line[:cut], *broken(f"{indent}-- {line[cut + 1:]}")]
    depth = depth_at(line)
    places = [it for it in range(len(indent) + 1, MOST) if line[it] == " " and it > len(indent) + 40]
    if not places:
        return [line]
    least = min(depth[it] for it in places)
    cut = max(it for it in places if depth[it] == least)
    if cut < 90:
        deeper = [it for it in places if it >= 90]
        least = min((depth[it] for it in deeper), default=least)
        cut = max((it for it in deeper if depth[it] == least), default=cut)
    return [line[:cut].rstrip(), *broken(f"{indent}{'' if line.startswith('      ') else '    '}{line[cut + 1:]}")]


def main(files):
    if not files:
        files = [f"{at}/{name}" for at, _, names in os.walk("crates") if "/out" not in at for name in names if name.endswith(".antt")]
    for file in sorted(files):
        with open(file, encoding="utf-8") as it:
            lines = it.read().split("\n")
        made = [part for line in lines for part in broken(line)]
        if made != lines:
            with open(file, "w", encoding="utf-8") as it:
                it.write("\n".join(made))
            print(f"{file}: {len(made) - len(lines)} lines more")


main(sys.argv[1:])
