#!/usr/bin/env python3
"""Brings the repository's own names to the language's spelling: `mostNodes` is `most_nodes`, `mem-getD` is `mem-get_or`.

Run once, at the top, behind the toolchain's own script. Names of src/ stay as they are: none has a capital inside.
"""
import re
import sys
from pathlib import Path

# A name of antt; dashes and underscores join its parts.
TOKEN = re.compile(r"[A-Za-z_ℕℤ0-9₀-₉'][A-Za-z0-9_'ℕℤ₀-₉≡≢≤<+*∷-]*")

# Lemmas that would have the name of the function that they are about.
LEMMAS = {name: name + "_lem" for name in (
    "all_closed", "all_hold", "meets_at", "open_order", "pair_step", "place_at", "same_answer")}

# The library's word for it.
WORDS = {"getD": "get_or", "get_d_map": "get_or_map"}


def snake(part):
    if part in WORDS:
        return WORDS[part]
    if not re.match(r"[a-z_]", part):
        return part
    return re.sub(r"(?<=[a-z0-9])([A-Z])", lambda m: "_" + m.group(1).lower(), part)


def spelled(name):
    return "-".join(snake(part) for part in name.split("-"))


def turn(text, lemmas):
    def one(match):
        name = match.group(0)
        # A path's parts are modules and functions, and the names of steps and goals are made from src/.
        if lemmas and name in LEMMAS and text[match.start() - 1] != ".":
            return LEMMAS[name]
        return spelled(name)
    return TOKEN.sub(one, text)


def main(top):
    for path in sorted(top.glob("crates/*/**/*")):
        if "out" in path.parts or path.suffix not in (".antt", ".rt", ".edit"):
            continue
        old = path.read_text()
        new = turn(old, path.suffix == ".antt")
        if new != old:
            path.write_text(new)


if __name__ == "__main__":
    main(Path(sys.argv[1] if len(sys.argv) > 1 else "."))
