#!/usr/bin/env python3
"""Brings the repository's own names to the spelling of today's Rattle: words of specs/ and proofs/ in snake case. Run once, after port.py and before any
edit by hand; docs/PORT.md names the commit.

usage: tools/respell.py          rewrites the files below crates/
       tools/respell.py --list   prints what would be renamed, and what falls together

A name is renamed where it begins with a small letter and has a capital after a small letter or a digit, as `rowCount` or `lowest-rowCount`: each part between
dashes by itself. Names of the library's own, strings and what Rust declares stay. The edits in must-fail/ are turned by tools/turn_edits.py.
"""
import pathlib
import re
import sys

ROOT = pathlib.Path(__file__).resolve().parent.parent
PART = re.compile(r"^[a-z][a-z0-9]*(?:[A-Z][a-z0-9]*)+['?₀-₉]*$")
TOKEN = re.compile(r"[^\s(){}\[\].,;:\"`«»|⌜⌝]+")
IMPORT = re.compile(r"^\s*(?:ghost )?use ([^\s{;]+)", re.M)
KEPT = {"hL", "toString", "valueOf"}  # a hypothesis, names of JavaScript's in comments; words of the library come in below
# Renamed by hand: what would fall together with a name in its scope, and a part that port.py has already respelled elsewhere.
BY_HAND = {"noRecord": "no_record_position", "getD-inside": "get_or-inside"}
LEMMAS = {"soundness": {"fill_one": "fill_one-keeps"}, "rules": {"gap_below": "gap_below-falls"}}
# Folders of lemmas are modules, in camel case.
FOLDERS = {"crates/machine/proofs/laws": "crates/machine/proofs/Laws", "crates/machine/proofs/runs": "crates/machine/proofs/Runs"}


def files():
    for path in sorted(ROOT.glob("crates/*/**/*")):
        if path.suffix in (".antt", ".rt") and "out" not in path.relative_to(ROOT).parts:
            yield path


def snake(part):
    return re.sub(r"(?<=[a-z0-9])([A-Z])", lambda m: "_" + m.group(1).lower(), part)


def turned(token):
    """The token as it is spelled today."""
    if token in BY_HAND:
        return BY_HAND[token]
    if "--" in token or token in KEPT:
        return token
    parts = token.split("-")
    if not any(PART.match(p) for p in parts):
        return token
    return "-".join(snake(p) if PART.match(p) and p not in KEPT else p for p in parts)


def library_words(text):
    """What a file imports from elsewhere than this repository's crates."""
    for line in re.findall(r"^\s*(?:ghost )?use (.+)$", text, re.M):
        path, brace, items = line.partition("{")
        if path.startswith("Rattle.") and not path.startswith(("Rattle.std.", "Rattle.core.", "Rattle.io.", "Rattle.os.", "Rattle.libc.")):
            continue
        if path.startswith(("crate", "rows", "sets")):
            continue
        for item in re.findall(r"[^\s,{};]+", items):
            yield item


def main():
    texts = {path: path.read_text(encoding="utf-8") for path in files()}
    for text in texts.values():
        KEPT.update(library_words(text))
    names = {}
    every = set()
    for path, text in texts.items():
        for token in TOKEN.findall(text):
            every.add(token)
            new = turned(token)
            if new != token:
                names[token] = new
    back = {}
    for old, new in names.items():
        back.setdefault(new, set()).add(old)
    clash = sorted(n for n, olds in back.items() if len(olds) > 1 or n in every)
    if "--list" in sys.argv:
        for old, new in sorted(names.items()):
            print(old, new)
        print(f"{len(names)} names; fall together with a name that is there: {' '.join(clash)}", file=sys.stderr)
        return
    for path, text in texts.items():
        here = LEMMAS.get(path.relative_to(ROOT).parts[1], {})
        new = TOKEN.sub(lambda m: names.get(m.group(0)) or here.get(m.group(0), m.group(0)), text)
        if "/machine/" in str(path) or "Rattle.machine.proofs" in new:
            new = re.sub(r"(machine\.proofs\.|mod )(laws|runs)\b", lambda m: m.group(1) + m.group(2).capitalize(), new)
        if new != text:
            path.write_text(new, encoding="utf-8")
    for old, new in FOLDERS.items():
        for suffix in ("", ".antt"):
            (ROOT / (old + suffix)).rename(ROOT / (new + suffix))
    print(f"respell: {len(names)} names; fall together: {' '.join(clash) or 'none'}")


main()
