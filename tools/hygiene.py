"""Proof hygiene, in the gate: every definition and lemma is used or is a result that docs/ names, every file of definitions or proofs is
cited, and every name that a file takes from another is used there. With --axioms, after the check: the libraries rest on no axiom, of
their own or of C, and the programs on those functions of C that are listed here.

A declaration is used where its name stands outside of its own declaration and clauses. What the check itself asks for of a function,
its invariants and its answers, is used.
"""

import collections
import pathlib
import re
import subprocess
import sys

HOUSE = pathlib.Path(__file__).resolve().parent.parent
DECLARED = re.compile(r"^(?:(?:abbrev|unfoldable|pub|record|data|ruleset) )*([^\s:{(]+)(?: \(| \{| :)")
HEAD = re.compile(r"(?:(?:abbrev|unfoldable|pub|record|data|ruleset) )*([^\s:{(]+)")
ASKED = re.compile(r"(?:(?:abbrev|unfoldable|pub) )*([^\s:{(]+) : (\w+)\.\1$")
NOT_DECLARED = ("use", "mod", "module")
WORD = re.compile(r"\[\]|[^\s(){}\[\],;.«»]+")
TAKEN = re.compile(r"^\s*(?:ghost )?(?:pub )?use ([^\s{]+?)(?:\.\{(.*)\}| as (\S+?))?;?$")
# the files of a function's own proof, which stand in a folder of its name
OWN = ("Answers.antt", "Invariants.antt", "Proof.antt")
# what of std the libraries name: plain numbers, below which there is no C
STD = re.compile(r"\bstd::(?!num\b)\w+|\b(?:HostRuntime|Global|extern \"C\" \{)")
# the functions of C that a program rests on, as the kit's libc and os declare them: of files std takes them all, whichever are called
LIBC = """bind chmod chown close fchmod fdatasync flock fsync ftruncate futimens lchown link lseek mkdir pipe2 read readlink realpath
    rename rmdir statx symlink unlink write""".split()
OS = "__xpg_strerror_r fcntl getdents64 open rattle_errno rattle_open_dir_at rattle_set_errno unlinkat".split()
FILES = {"libc": LIBC, "os": OS}
AXIOMS = {"recorded": FILES, "tryall": FILES, "build_index": {"libc": sorted([*LIBC, "getentropy"]), "os": OS}}


class File:
    """A file of definitions, code or proofs, without its comments."""

    def __init__(self, path):
        self.path = path
        self.name = str(path.relative_to(HOUSE))
        mark = "--" if path.suffix == ".antt" else "//"
        lines = [line for line in path.read_text().split("\n") if not line.lstrip().startswith(mark)]
        self.taken = [found for found in map(TAKEN.match, lines) if found]
        # an attribute names lemmas by their paths
        lines = [line.replace("::", " ") if line.lstrip().startswith("#") else line for line in lines]
        self.lines = [line for line in lines if not TAKEN.match(line)]
        self.words = set(WORD.findall("\n".join(self.lines)))
        # what the check asks for stands at a type of the function's goals
        goals = [found.group(3) for found in self.taken if found.group(3) and found.group(1).endswith((".Goals", ".Given"))]
        heads = [ASKED.match(line) for line in self.lines]
        self.asked = {head.group(1) for head in heads if head and head.group(2) in goals}

    def declared(self):
        """The names at the left edge, each with how many lines of its own it stands in: its head, its clauses and what belongs to them."""
        names, owner = {}, None
        for line in self.lines:
            head = HEAD.match(line)
            if head and head.group(1) != "unfolding":
                owner = head.group(1)
                if DECLARED.match(line) and owner not in NOT_DECLARED:
                    names.setdefault(owner, 0)
            if owner in names and owner in WORD.findall(line):
                names[owner] += 1
        return names

    def unused(self):
        """What is taken from other files and not used."""
        for found in self.taken:
            module, names, other = found.groups()
            for name in [other] if other else (names or "").split(", "):
                own = name.split(" as ")[-1]
                parts = [part for part in own.split("◌") if part]
                if own and own not in self.words and not all(part in self.words for part in parts):
                    yield f"{self.name}: {own} of {module} is taken and not used"


def files():
    kinds = [crate / kind for crate in sorted((HOUSE / "crates").iterdir()) for kind in ("specs", "src", "proofs")]
    return [File(path) for kind in kinds for path in sorted(kind.rglob("*")) if path.suffix in (".antt", ".rt")]


def is_own(file):
    """Whether it is of a function's own proof."""
    return file.path.name in OWN and file.path.parent.name != "proofs"


def is_result(file, name, told):
    """What nothing need cite: what the check itself asks for of a function, and a theorem that docs/ names."""
    asked = f"{file.path.parent.name}_spec" == name or name in file.asked
    return is_own(file) and asked or f"`{name}`" in told or file.path.name == "OneAnswer.antt"


def faults():
    told = "".join((HOUSE / "docs" / page).read_text() for page in ("PROMISES.md", "READING.md"))
    every = files()
    standing = collections.Counter(word for file in every for line in file.lines for word in set(WORD.findall(line)))
    modules = {part for file in every for found in file.taken for part in found.group(1).split(".")}
    for file in every:
        yield from file.unused()
        if file.path.suffix != ".antt" or file.path.name == "Lib.antt":
            continue
        for name, own in file.declared().items():
            if standing[name] <= own and not is_result(file, name, told):
                yield f"{file.name}: {name} is used nowhere"
        stem = file.path.stem
        if not is_own(file) and stem not in modules and f"{stem}:" not in told and f" {stem}" not in told:
            yield f"{file.name}: nothing cites it"


def crates():
    """Each crate of crates.txt, with whether it is one that is linked: a program or a static library."""
    for line in (HOUSE / "crates.txt").read_text().split("\n"):
        head = line.partition("#")[0].partition(":")[0].split()
        if head:
            folder = HOUSE / "crates" / head[0]
            yield folder, "staticlib" in head or (folder / "src" / "main.rt").exists()


def axiom_faults():
    """What the check of each linked crate says that it rests on, of all that it stands on; a library is not linked, and names nothing that could."""
    for folder, linked in crates():
        if not linked:
            named = {word for path in sorted((folder / "src").rglob("*.rt")) for word in STD.findall(path.read_text())}
            if named:
                yield f"{folder.name} names {', '.join(sorted(named))}"
            continue
        ran = subprocess.run(["rt", "check", "--list-axioms"], cwd=folder, capture_output=True, text=True)
        if ran.returncode != 0:
            yield f"{folder.name} is not proved"
            continue
        told = re.findall(r"^axioms (\w+): (\w+) reached of the \d+ declared$((?:\n  \S.*)*)", ran.stdout, re.M)
        found = {name: re.findall(r"^  (\S+)   reached$", lines, re.M) for name, _, lines in told}
        if not told or any(count != (str(len(found[name])) if found[name] else "none") for name, count, _ in told):
            yield f"{folder.name}: what it rests on is told in another form"
        found = {name: sorted(word.split("::")[-1] for word in words) for name, words in found.items() if words}
        if found != AXIOMS.get(folder.name, {}):
            yield f"{folder.name} rests on {found}, and not on {AXIOMS.get(folder.name, {})}"


def main():
    found = list(faults()) + (list(axiom_faults()) if "--axioms" in sys.argv[1:] else [])
    print("\n".join(found), end="\n" if found else "")
    sys.exit(bool(found))


main()
