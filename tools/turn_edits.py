#!/usr/bin/env python3
"""Brings the must-fail edits to the spelling of today's Rattle, each under its name and with the same wrong meaning. Run once, after the port; docs/PORT.md
names the commits.

usage: tools/turn_edits.py make FOLDER [ROUND..]   makes each round's tree in FOLDER (outside the checkout; some minutes each)
       tools/turn_edits.py take FOLDER [NAME..]    writes the edits (of these crates) from those trees, and prints what is left to do by hand
       tools/turn_edits.py fit [NAME..]            says which edits don't fit the text: each `old:` must stand once in its file, pairs applied in order

No word is turned here: the scripts of the port turn them. An edit is made in the landed text, port.py and tools/respell.py turn that text as they turned the
repository, and what differs from the port's commit is the edit in today's spelling. Edits of lines apart go together in one round.
"""
import difflib
import os
import pathlib
import re
import subprocess
import sys

ROOT = pathlib.Path(__file__).resolve().parent.parent


def port_py():
    """The kit's script: it stands beside the page whose path `rt doc` prints."""
    page = subprocess.run(["rt", "doc"], capture_output=True, text=True, check=True).stdout.strip()
    return pathlib.Path(page).parent / "port/port.py"


def git(*words, where=ROOT, check=True):
    r = subprocess.run(["git", *words], cwd=where, capture_output=True, text=True)
    if check and r.returncode:
        raise SystemExit(f"git {' '.join(words)}: {r.stderr.strip()}")
    return r.stdout if not r.returncode else None


PAGE = (ROOT / "docs/PORT.md").read_text(encoding="utf-8").split("\n")
LANDED = PAGE[0].split(": ")[1].strip()
PORTED = PAGE[1].split(": ")[1].strip()


def parse(text):
    """Comment lines, the file, pairs of old and new."""
    comments, file, pairs = [], None, []
    for line in text.split("\n"):
        if line.startswith("#"):
            comments.append(line)
        elif line.startswith("file: "):
            file = line[6:]
        elif line.startswith("old: "):
            pairs.append([line[5:], None])
        elif line.startswith("new: ") or line == "new:":
            pairs[-1][1] = line[5:]
        elif line.strip():
            raise SystemExit(f"a line of an edit cannot be told: {line}")
    return comments, file, pairs


def written(comments, file, pairs):
    return "".join(f"{c}\n" for c in comments) + f"file: {file}\n" + "".join(f"old: {o}\nnew: {n}\n" for o, n in pairs)


def landed_edits():
    for path in sorted(git("ls-tree", "-r", "--name-only", LANDED).split("\n")):
        if path.endswith(".edit") and "/must-fail/" in path:
            crate = "/".join(path.split("/")[:2])
            comments, file, pairs = parse(git("show", f"{LANDED}:{path}"))
            yield path, crate + "/" + file, comments, file, pairs


def rounds():
    """Edits by rounds: in one round no two edits touch lines that are the same or neighbours."""
    texts, out = {}, []
    for path, target, _, _, pairs in landed_edits():
        text = texts.setdefault(target, git("show", f"{LANDED}:{target}"))
        lines, now = set(), text
        for old, new in pairs:
            if now.count(old) != 1:
                raise SystemExit(f"{path}: stands {now.count(old)} times at LANDED: {old}")
            if text.count(old) == 1:
                lines.add(text[: text.index(old)].count("\n"))
            now = now.replace(old, new)
        near = {n + d for n in lines for d in (-1, 0, 1)}
        for it in out:
            if not (it["lines"].get(target, set()) & near):
                break
        else:
            it = {"lines": {}, "edits": []}
            out.append(it)
        it["lines"].setdefault(target, set()).update(lines)
        it["edits"].append(path)
    return out


def make(folder, which):
    """A clone of LANDED with a round's edits made, turned by the port's scripts. Round 0 has no edits, to see that the scripts give what the port's commit has."""
    folder = pathlib.Path(folder).resolve()
    folder.mkdir(parents=True, exist_ok=True)
    edits = {path: (target, pairs) for path, target, _, _, pairs in landed_edits()}
    every = [{"edits": []}] + rounds()
    for k in which or range(len(every)):
        tree = folder / f"round-{k}"
        if (tree / ".done").exists():
            continue
        subprocess.run(["rm", "-rf", tree], check=True)
        git("clone", "-q", "--shared", "--no-checkout", str(ROOT), str(tree))
        git("checkout", "-q", LANDED, where=tree)
        for path in every[k]["edits"]:
            target, pairs = edits[path]
            was = now = git("show", f"{LANDED}:{target}")
            for old, new in pairs:
                now = now.replace(old, new)
            lines = (tree / target).read_text(encoding="utf-8").split("\n")
            for n, (x, y) in enumerate(zip(was.split("\n"), now.split("\n"))):
                if x != y:
                    lines[n] = y
            (tree / target).write_text("\n".join(lines), encoding="utf-8")
        git("-c", "user.name=edits", "-c", "user.email=edits@localhost", "commit", "-q", "--allow-empty", "-am", f"round {k}", where=tree)
        # port.py as it is, but for the folder where it keeps what its scripts said
        script = port_py()
        code = re.sub(r'(?m)^SAID = ".*"$', f'SAID = "{folder}/said-{k}"', script.read_text(encoding="utf-8"))
        code = code.replace("os.path.dirname(os.path.realpath(__file__))", repr(str(script.parent)))
        (folder / f"port-{k}.py").write_text(code, encoding="utf-8")
        with open(folder / f"log-{k}", "w") as log:
            subprocess.run([sys.executable, folder / f"port-{k}.py"], cwd=tree, stdout=log, stderr=log, check=True)
            (tree / "tools").mkdir(exist_ok=True)
            (tree / "tools/respell.py").write_text(git("show", f"{PORTED}:tools/respell.py"), encoding="utf-8")
            subprocess.run([sys.executable, "tools/respell.py"], cwd=tree, stdout=log, stderr=log, check=True)
        (tree / ".done").write_text("")
        print(f"round {k}: {len(every[k]['edits'])} edits", flush=True)


def hunks(a, b):
    """Lines that differ: one for one where as many became as many."""
    for tag, i, j, k, m in difflib.SequenceMatcher(None, a, b, autojunk=False).get_opcodes():
        if tag != "equal" and j - i == m - k:
            yield from ((i + n, i + n + 1, k + n, k + n + 1) for n in range(j - i))
        elif tag != "equal":
            yield i, j, k, m


def place(landed, ported, i):
    """About which line of `ported` line i of `landed` became: by a match of lines with their words respelled away."""
    a, b = [plain(l) for l in landed], [plain(l) for l in ported]
    best = None
    for block in difflib.SequenceMatcher(None, a, b, autojunk=False).get_matching_blocks():
        if block.size and block.a <= i < block.a + block.size:
            return block.b + i - block.a
        if block.size and block.a + block.size <= i:
            best = block.b + i - block.a
    return best if best is not None else i


WORD = re.compile(r"[\w'′₀-₉-]+|[^\s\w]")


def plain(text):
    return re.sub(r"[^a-z0-9]", "", text.lower())


def bounds(landed_line, old, line):
    """Where the landed edit's text stands in the line as it is now: first by what is left of it without spelling, then by a match of words."""
    at = landed_line.index(old)
    before, after = landed_line[:at], landed_line[at + len(old) :]
    lead, tail = re.match(r"\W*", old).group(0).strip(), re.search(r"\W*$", old).group(0).strip()
    starts = [n for n in range(len(line) + 1) if plain(line[:n]) == plain(before) and line.startswith(lead, n) and (n == 0 or not (line[n - 1 : n].isalnum() and line[n : n + 1].isalnum()))]
    ends = [n for n in range(len(line) + 1) if plain(line[n:]) == plain(after) and line[:n].endswith(tail) and not (line[n - 1 : n].isalnum() and line[n : n + 1].isalnum())]
    mine, theirs = list(WORD.finditer(line)), list(WORD.finditer(landed_line))
    nb, na = len(WORD.findall(before)), len(WORD.findall(after))
    match = difflib.SequenceMatcher(None, [m.group(0) for m in theirs], [m.group(0) for m in mine], autojunk=False).get_matching_blocks()
    at = {block.a + n: mine[block.b + n] for block in match for n in range(block.size)}
    start = max(starts) if starts else at[nb].start() if nb in at else None
    last = len(theirs) - na - 1
    end = min(ends) if ends else at[last].end() if last in at else None
    return start, end


def part(landed_line, old, line, new_line, text):
    """The part of `line` that the landed edit's text is of `landed_line`, where all else of the line stays; else the whole line."""
    lead = len(line) - len(line.lstrip())
    keep = lead if old == old.lstrip() and new_line[:lead] == line[:lead] else 0
    whole = (keep if text.count(line[keep:]) == 1 else 0, len(line), len(new_line))
    if old not in landed_line or old.strip() == landed_line.strip():
        return whole
    start, end = bounds(landed_line, old, line)
    if start is None or end is None:
        return whole
    if start <= lead:
        start = lead if old == old.lstrip() else 0
    tail = line[end:]
    if start >= end or not new_line.startswith(line[:start]) or not new_line.endswith(tail) or len(new_line) - len(tail) < start or text.count(line[start:end]) != 1:
        return whole
    return start, end, len(new_line) - len(tail)


def take(folder, only):
    folder = pathlib.Path(folder)
    by_path = {path: (target, comments, file, pairs) for path, target, comments, file, pairs in landed_edits()}
    left = []
    texts = lambda rev, p: (git("show", f"{rev}:{p}", check=False) or "").split("\n")
    for k, it in enumerate(rounds(), 1):
        if not (folder / f"round-{k}" / ".done").exists():
            left.append(f"round {k} is not made: {len(it['edits'])} edits")
            continue
        groups = {}
        for path in it["edits"]:
            groups.setdefault(by_path[path][0], []).append(path)
        for target, paths in sorted(groups.items()):
            if only and target.split("/")[1] not in only:
                continue
            landed, ported = texts(LANDED, target), texts(PORTED, target)
            there = (folder / f"round-{k}" / target).read_text(encoding="utf-8").split("\n")
            found = list(hunks(ported, there))
            marks = []  # the edits' places in the ported text
            for path in paths:
                for n, (old, new) in enumerate(by_path[path][3]):
                    text = "\n".join(landed)
                    if text.count(old) != 1:
                        left.append(f"{path}: pair {n + 1} is of text that an earlier pair made")
                        continue
                    line = text[: text.index(old)].count("\n")
                    marks.append((line, place(landed, ported, line), path, n))
            marks.sort()
            taken = {}
            if len(found) == len(marks):
                for (line, _, path, n), hunk in zip(marks, found):
                    taken.setdefault(path, []).append((n, line, hunk))
            else:
                for hunk in found:
                    near = min(marks, key=lambda m: 0 if hunk[0] <= m[1] < hunk[1] else min(abs(m[1] - hunk[0]), abs(m[1] - hunk[1] + 1)))
                    taken.setdefault(near[2], []).append((near[3], near[0], hunk))
                left.append(f"{target}: round {k}: {len(marks)} pairs, {len(found)} places that differ; look at {' '.join(p.split('/')[-1] for p in paths)}")
            for path in paths:
                _, comments, file, pairs = by_path[path]
                out = []
                for n, line, (i, j, a, b) in sorted(taken.get(path, [])):
                    if j - i != b - a:
                        left.append(f"{path}: {j - i} lines became {b - a}:\n    " + "\n    ".join(["- " + l for l in ported[i:j]] + ["+ " + l for l in there[a:b]]))
                    for was, now in zip(ported[i:j], there[a:b]):
                        if was == now:
                            continue
                        s, e, f = part(landed[line], pairs[n][0], was, now, "\n".join(ported))
                        out.append([was[s:e], now[s:f]])
                if len(out) != len(pairs):
                    left.append(f"{path}: {len(pairs)} pairs became {len(out)}")
                path_now = ROOT / path
                path_now.write_text(written(comments, file, out or pairs), encoding="utf-8")
    left += misfits(only)
    print("\n".join(left))
    print(f"{len(left)} to look at")


def misfits(only):
    out = []
    for path in sorted(ROOT.glob("crates/*/must-fail/*.edit")):
        crate = path.parent.parent
        if only and crate.name not in only:
            continue
        comments, file, pairs = parse(path.read_text(encoding="utf-8"))
        if not (crate / file).exists():
            out.append(f"{path.relative_to(ROOT)}: no file {file}")
            continue
        text = (crate / file).read_text(encoding="utf-8")
        for n, (old, new) in enumerate(pairs):
            if text.count(old) != 1:
                out.append(f"{path.relative_to(ROOT)}: pair {n + 1} stands {text.count(old)} times: {old}")
            if old == new:
                out.append(f"{path.relative_to(ROOT)}: pair {n + 1} changes nothing")
            text = text.replace(old, new)
    return out


def fit(only):
    names = {path for path, *_ in landed_edits()}
    here = {str(p.relative_to(ROOT)) for p in ROOT.glob("crates/*/must-fail/*.edit")}
    for path in sorted(names - here):
        print(f"{path}: is not there")
    out = misfits(only)
    print("\n".join(out + [f"{len(here)} edits of {len(names)}, {len(out)} pairs that don't fit"]))
    return 1 if out or names - here else 0


def main():
    if len(sys.argv) > 2 and sys.argv[1] == "make":
        make(sys.argv[2], [int(k) for k in sys.argv[3:]])
    elif len(sys.argv) > 2 and sys.argv[1] == "take":
        take(sys.argv[2], sys.argv[3:])
    elif len(sys.argv) > 1 and sys.argv[1] == "fit":
        raise SystemExit(fit(sys.argv[2:]))
    else:
        raise SystemExit(__doc__)


main()
