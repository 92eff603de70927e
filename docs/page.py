"""What the scripts of this folder share: the crates, and files that are written or, with --check, only compared."""

import pathlib
import sys

ROOT = pathlib.Path(__file__).resolve().parent.parent
DOCS = ROOT / "docs"


def crates():
    """The crates of crates.txt with those they use, in its order; the kit's own libraries, which have no line, are left out."""
    lines = (line.split("#")[0] for line in (ROOT / "crates.txt").read_text().splitlines())
    uses = {name.split()[0]: used.split() for name, _, used in (line.partition(":") for line in lines if line.strip())}
    return {name: [other for other in used if other in uses] for name, used in uses.items()}


def between(text, name, part):
    """The text with another part between its two markers of that name."""
    begin, end = f"<!-- {name}: begin -->\n", f"<!-- {name}: end -->"
    head, found, rest = text.partition(begin)
    old, also_found, tail = rest.partition(end)
    if not (found and also_found):
        sys.exit(f"there are no markers '{name}'")
    return head + begin + part + end + tail


def put(path, text):
    """Writes the text; with --check it must stand there already."""
    if sys.argv[1:] == ["--check"]:
        if not path.exists() or path.read_text() != text:
            sys.exit(f"{path.relative_to(ROOT)} is not up to date: run {pathlib.Path(sys.argv[0]).name} in docs/")
    elif sys.argv[1:]:
        sys.exit(f"usage: {sys.argv[0]} [--check]")
    else:
        path.write_text(text)
