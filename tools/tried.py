"""Tries wrong code: each edit of tools/tried makes a public function answer wrongly, and the check must then refuse its proof.

An edit is `function: the wrong answer`, the file, the lines taken out (-) and those put in (+); or `must-fail NAME` where it stands
among the crate's must-fail edits. A fact's name can hold the test that an edit changes: a line `~ OLD NEW` then has the names in the
proof of the changed function follow. It is made in a copy of the checkout, where `rt check` of the crate must fail at a fact that no
longer holds, and not merely at a proof that names what the code no longer has. What was seen goes into docs/TRIED.md, a section a
crate; crates' names as arguments try only these, and --new only the edits that the page has no row for. Fails where a public function
has no two edits, or an edit is not refused. With --check nothing is tried: the page must have a row for every edit, every public
function two edits, and every edit must fit its file.
"""

import os
import pathlib
import re
import shutil
import subprocess
import sys
import tempfile

HOUSE = pathlib.Path(__file__).resolve().parent.parent
CRATES = ["bdz_base", "bdz_table", "bdz_image", "bdz_list", "bdz_oracle"]
PAGE = HOUSE / "docs" / "TRIED.md"
# how much of a long line is shown on each side of what changes
CONTEXT = 50
HEAD = """# Tried

For every public function two wrong answers or more, each tried by an edit of the code and seen refused. Made by `make tried` (tools/tried.py, tools/tried/). The last column is the first fact that the check could not show of the edited code: the function or lemma, and the fact's name in its proof. `returns` and `returns-..` are the promise itself, at one of the places where the function returns; `F-requires` is what the function F that it calls asks for; `loop-i-preserved` that the loop over i keeps what it keeps. Edits in bold are must-fail edits, which every gate tries again.
"""
FUNCTION = re.compile(r" *(?:pub(?:\(crate\))? )?(?:extern \"C\" )?fn (\w+)")
PUBLIC = re.compile(r" *pub (?:extern \"C\" )?fn (\w+)", re.M)
# what is left for a function's own proof, at its place in the code
LEFT = re.compile(r"^note: (?:\./)?(src/(\S+)\.rt):(\d+):\d+: .*? \(`([^`]+)`\)", re.M)
# what a file of proofs does not show
FALLEN = re.compile(r"^(?:\./)?proofs/(\S+)\.antt:\d+:\d+: error: `([^`]+)`: (.*)", re.M)
# the files of a function's own proof
OWN = re.compile(r"/(?:Answers|Invariants|Proof)$")
# a name of the proof that the edited code no longer has, or one that it has more
UNFIT = re.compile(r"has no `|no field|is not in scope|expected a function|too many|too few")


class Edit:
    """One wrong answer of one function."""

    def __init__(self, crate, block):
        head, self.path, *lines = block.strip("\n").split("\n")
        self.function, self.wrong = head.split(": ", 1)
        self.crate, self.kept = crate, self.path.startswith("must-fail ")
        self.names = [tuple(line[2:].split(" ")) for line in lines if line.startswith("~ ")]
        if self.kept:
            self.read_kept(self.path.removeprefix("must-fail "))
        else:
            old, new = ("\n".join(line[2:] for line in lines if line.startswith(mark)) for mark in ("- ", "+ "))
            self.pairs = [(self.path, old, new)]

    def read_kept(self, name):
        self.pairs, self.wrong = [], f"**{self.wrong}**"
        for line in (HOUSE / "crates" / self.crate / "must-fail" / f"{name}.edit").read_text().split("\n"):
            mark, _, text = line.partition(":")
            if mark == "file":
                path = text.strip()
            elif mark == "old":
                old = text.removeprefix(" ")
            elif mark == "new":
                self.pairs.append((path, old, text.removeprefix(" ")))
        self.path = self.pairs[0][0]

    def edited(self, folder):
        """The files of the crate in the folder that it changes, each with its new text."""
        texts = {}
        for path, old, new in self.pairs:
            text = texts.get(path) or (folder / path).read_text()
            if text.count(old) != 1:
                raise SystemExit(f"{self.function}: {old!r} stands {text.count(old)} times in {path} of {self.crate}")
            texts[path] = text.replace(old, new)
        for old, new in self.names:
            name, found = re.compile(rf"(?<!\w){re.escape(old)}(?!\w)"), False
            for path in self.proof(folder):
                text = texts.get(path) or (folder / path).read_text()
                found = found or bool(name.search(text))
                texts[path] = name.sub(new, text)
            if not found:
                raise SystemExit(f"{self.function}: {self.wrong}: its proof has no name with {old}")
        return texts

    def proof(self, folder):
        """The files of the proof of the function that it changes."""
        whole, old = (folder / self.path).read_text(), self.pairs[0][1]
        changed = function_at(whole, whole[: whole.index(old)].count("\n") + 1 + first_change(old, self.pairs[0][2]))
        module = folder / "proofs" / pathlib.Path(self.path).with_suffix("").relative_to("src")
        return [str(path.relative_to(folder)) for path in sorted(module.rglob("*.antt")) if path.parent.name == changed]

    def fits(self):
        """Fails where it cannot be made."""
        self.edited(HOUSE / "crates" / self.crate)

    def row(self):
        """Its row of the page, up to what was seen."""
        return f"| {self.function} | {self.wrong} | {self.told()} |"

    def told(self):
        """The lines that change, each by what it becomes."""
        pairs = [pair for path, old, new in self.pairs if path == self.path for pair in zip(old.split("\n"), new.split("\n"))]
        changes = ["`{}` becomes `{}`".format(*shortened(old.strip(), new.strip())) for old, new in pairs if old != new]
        return f"{self.path}: {'; '.join(changes)}".replace("|", "\\|")


def check():
    """Whether the page speaks of just the edits that there are."""
    rows = [line.rsplit("|", 2)[0] + "|" for line in PAGE.read_text().split("\n") if line.startswith("| ")]
    listed = [row for row in rows if not row.startswith("| function ")]
    edits = [edit for crate in CRATES for edit in edits_of(crate)]
    for edit in edits:
        edit.fits()
    if listed != [edit.row() for edit in edits]:
        raise SystemExit("docs/TRIED.md does not list the edits of tools/tried: make tried")


def shortened(old, new):
    """Two lines without what both have far from where they differ."""
    front = len(os.path.commonprefix([old, new]))
    back = len(os.path.commonprefix([old[front:][::-1], new[front:][::-1]]))
    first, behind = max(0, front - CONTEXT), max(0, back - CONTEXT)
    marks = "…" if first else "", "…" if behind else ""
    return [marks[0] + line[first : len(line) - behind] + marks[1] for line in (old, new)]


def edits_of(crate):
    text = (HOUSE / "tools" / "tried" / f"{crate}.edits").read_text()
    edits = [Edit(crate, block) for block in text.split("\n\n") if block.strip()]
    for source in sorted((HOUSE / "crates" / crate / "src").glob("*.rt")):
        for function in PUBLIC.findall(source.read_text()):
            if sum(edit.function.split("::")[-1] == function for edit in edits) < 2:
                raise SystemExit(f"{crate}: {function} has no two edits")
    return edits


def proved(house, crate):
    ran = subprocess.run(["rt", "check"], cwd=house / "crates" / crate, capture_output=True, text=True)
    return ran.returncode, ran.stdout + ran.stderr


def first_change(old, new):
    """How many lines both begin with."""
    return next(at for at, (a, b) in enumerate(zip(old.split("\n"), new.split("\n"))) if a != b)


def function_at(text, line):
    """The function whose head stands at a line, below an attribute there, or last above it."""
    lines, at = text.split("\n"), int(line)
    while lines[at - 1].lstrip().startswith("#["):
        at += 1
    return [found.group(1) for found in map(FUNCTION.match, lines[:at]) if found][-1]


def first_refused(folder, output):
    """Where the check stopped: the function or lemma, and the fact; None where a proof no longer fits, or nothing fell."""
    fallen = FALLEN.findall(output)
    if any(UNFIT.search(said) for _, _, said in fallen):
        return None
    places = [(f"{module}/{function_at((folder / path).read_text(), line)}", fact) for path, module, line, fact in LEFT.findall(output)]
    # what a function's own proof says comes before what else speaks of its promise
    fallen.sort(key=lambda error: not OWN.search(error[0]))
    places += [(OWN.sub("", module), fact) for module, fact, said in fallen if "was not admitted" not in said]
    # that a number has room says least of what is answered
    places.sort(key=lambda place: place[1].startswith("overflow_"))
    return "{}, `{}`".format(*places[0]) if places else None


def seen(house, edit):
    """Where the check refuses the edited code."""
    folder = house / "crates" / edit.crate
    edited = edit.edited(folder)
    whole = {path: (folder / path).read_text() for path in edited}
    for path, text in edited.items():
        (folder / path).write_text(text)
    status, output = proved(house, edit.crate)
    place = first_refused(folder, output) if status == 1 else None
    for path, text in whole.items():
        (folder / path).write_text(text)
    if place is None:
        told = "not refused" if status == 0 else "refused at no fact"
        said = [line for line in output.split("\n") if "error" in line or line.startswith("note: src/")]
        print("\n".join([f"{edit.function}: {edit.wrong}: {told}", *said[:20]]), flush=True)
    return place


def section(house, crate, known):
    """The rows of a crate, of which some are known, and whether each edit was refused at a fact."""
    edits = edits_of(crate)
    if any(edit.row() not in known for edit in edits) and proved(house, crate)[0] != 0:
        raise SystemExit(f"{crate} is not proved as it stands")
    rows, held = [], True
    for edit in edits:
        if edit.row() in known:
            rows.append(known[edit.row()])
            continue
        place = seen(house, edit)
        held = held and place is not None
        print(f"{crate} {edit.function}: {edit.wrong}: {place}", flush=True)
        rows.append(f"{edit.row()} {place} |")
    head = "| function | wrong answer | edit | first refused at |\n|---|---|---|---|"
    return "\n".join([f"## {crate}\n", head, *rows, ""]), held


def main():
    if sys.argv[1:] == ["--check"]:
        return check()
    crates = [word for word in sys.argv[1:] if word != "--new"] or CRATES
    lines = PAGE.read_text().split("\n") if "--new" in sys.argv[1:] else []
    known = {line.rsplit("|", 2)[0] + "|": line for line in lines if line.startswith("| ")}
    parts = dict(re.findall(r"^(## (?:\w+))\n(.*?)(?=^## |\Z)", PAGE.read_text() if PAGE.exists() else "", re.M | re.S))
    parts = {name.removeprefix("## "): f"{name}\n{rows.rstrip()}\n" for name, rows in parts.items()}
    held = True
    with tempfile.TemporaryDirectory() as folder:
        house = pathlib.Path(folder) / "house"
        shutil.copytree(HOUSE, house, symlinks=True, ignore=shutil.ignore_patterns(".git", "out", "target"))
        for crate in crates:
            parts[crate], good = section(house, crate, known)
            held = held and good
            if good:
                PAGE.write_text("\n".join([HEAD, *(parts[name] for name in CRATES if name in parts)]))
    sys.exit(not held)


main()
