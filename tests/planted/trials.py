"""Trials of mutants of a crate's functions. Contracts are modular: the proof of a function uses only the contracts of what it calls. So one
check tries mutants of many functions, one of each, and the prover reports for each of them which of its goals fail."""

from pathlib import Path
import re
import shutil
import subprocess
import sys
import tempfile

from functions import UNDECIDED, Sources, judge, verdicts_of

ROOT = Path(__file__).resolve().parent.parent.parent
PARTS = ("src", "specs", "proofs")
CONSTANT = re.compile(r"(?:const|static) (\w+):")
ERROR = re.compile(r"^(?:\./)?(src/\S+?):(\d+):\d+: error", re.MULTILINE)
NOT_COMPILED = "does not compile"


class Mutant:
    """A mutant: its name, its changes, each a file, an old text and a new one, and what came of it."""

    def __init__(self, name, changes):
        """A mutant that is not tried yet."""
        self.name, self.changes, self.verdict, self.reason = name, changes, UNDECIDED, "not tried"

    def applied(self, texts):
        """The texts of files with the changes, or None if an old text is not in its file once."""
        texts = dict(texts)
        for file, old, new in self.changes:
            if texts[file].count(old) != 1:
                return None
            texts[file] = texts[file].replace(old, new)
        return texts

    def functions(self, sources):
        """The functions whose bodies this mutant changes; none if it changes anything else, such as a signature or a constant."""
        found, texts = set(), sources.texts
        for file, old, new in self.changes:
            before = texts.get(file, "")
            after = before.replace(old, new)
            place = sources.place(file, before, line_of(before, old)) if before else None
            if not place or not place.keeps_header(before, after):
                return set()
            found.add(place.function)
            texts = {**texts, file: after}
        return found

    def constants(self, texts):
        """The constants that this mutant changes."""
        lines = (texts[file].splitlines()[line_of(texts[file], old)] for file, old, _ in self.changes)
        return {name for line in lines for name in CONSTANT.findall(line)}


def line_of(text, part):
    """The number of the line with the first word of a part of a text."""
    return text.count("\n", 0, text.index(part) + len(part) - len(part.lstrip()))


class Crate:
    """A crate: its name, the libraries that it uses, and those of the repository below it."""

    def __init__(self, name, uses, known):
        """A crate that uses crates of the toolchain and known ones."""
        self.name, self.uses, self.folder = name, uses, ROOT / "crates" / name
        self.below = sorted({crate for use in uses if use in known for crate in (use, *known[use].below)})
        self.files = sorted(file for part in PARTS for file in (self.folder / part).rglob("*") if file.is_file())

    def command(self, kept):
        """The command of the prover, which goes on from what `kept` contains."""
        kit = toolchain()
        words = [kit / "bin/rattle", "check", "src/lib.rt", "--crate-name", self.name, "--jobs", "1", "--links", f"{self.name}="]
        for use in ["std", *self.uses]:
            words += ["--extern", f"{use}={library(use) if use in self.below else kit / 'rlibs' / f'{use}.rlib'}"]
        for place in [kit / "rlibs", *(library(name).parent for name in self.below)]:
            words += ["-L", f"dependency={place}"]
        words += ["--antt-project", kit / "rattle/logic/antt-project.json", "--logic-built", kit / "logic_built"]
        return [*words, "--incremental", kept]


def toolchain():
    """The directory of the toolchain."""
    return Path(shutil.which("rattle") or sys.exit("the toolchain is not on your path")).resolve().parent.parent


def library(name):
    """The library of a crate, as `rt` has built it."""
    return ROOT / "crates" / name / "out/rlib" / f"{name}.rlib"


def crates_of_repository():
    """The crates of crates.txt by their names, lowest first."""
    known = {}
    for line in (ROOT / "crates.txt").read_text(encoding="utf-8").splitlines():
        name, _, uses = line.partition("#")[0].partition(":")
        if name.strip():
            name = name.split()[0]
            known[name] = Crate(name, uses.split(), known)
    return known


class Trial:
    """Mutants of a crate, tried in a copy of it."""

    def __init__(self, crate, mutants, room):
        """Copies the crate into a directory. Ends if an old text is not in its file once."""
        self.crate, self.mutants, self.copy, self.kept = crate, mutants, Path(room) / "copy", Path(room) / "kept"
        self.kept.mkdir()
        for part in PARTS:
            if (crate.folder / part).is_dir():
                shutil.copytree(crate.folder / part, self.copy / part)
        files = {file for mutant in mutants for file, _, _ in mutant.changes}
        self.texts = {file: (self.copy / file).read_text(encoding="utf-8") for file in files}
        wrong = [mutant.name for mutant in mutants if not mutant.applied(self.texts)]
        if wrong:
            sys.exit(f"{crate.name}: an old text is not in its file once: {', '.join(wrong)}")
        self.sources = Sources(self.copy)
        self.functions = {mutant: mutant.functions(self.sources) for mutant in mutants}

    def run(self):
        """Tries the mutants of functions, many at once, and then those that are left, each by itself. Yields them as they are judged."""
        rest, before = [mutant for mutant in self.mutants if self.functions[mutant]], []
        while rest and rest != before:
            self.check(self.independent(rest))
            yield from (mutant for mutant in rest if mutant.verdict != UNDECIDED)
            rest, before = [mutant for mutant in rest if mutant.verdict == UNDECIDED], rest
        for mutant in self.mutants:
            if mutant.verdict == UNDECIDED:
                self.check([mutant])
                yield mutant

    def independent(self, mutants):
        """Those of these mutants that can be tried at the same time, since each changes other functions."""
        members, taken, texts = [], set(), self.texts
        for mutant in mutants:
            applied = None if taken & self.functions[mutant] else mutant.applied(texts)
            if applied:
                members.append(mutant)
                taken |= self.functions[mutant]
                texts = applied
        return members

    def changed(self, mutant):
        """The functions whose goals a mutant can break: those whose bodies it changes, or which name a constant that it changes."""
        if self.functions[mutant]:
            return self.functions[mutant]
        names = "|".join(rf"\b{name}\b" for name in mutant.constants(self.texts)) or "$^"
        return {function for function, text in self.sources.functions() if re.search(names, text)}

    def check(self, members):
        """Checks the functions that these mutants change, and what they call, and notes the verdicts. Leaves out what does not compile."""
        texts = self.texts
        for mutant in members:
            texts = mutant.applied(texts)
        for file, text in texts.items():
            (self.copy / file).write_text(text, encoding="utf-8")
        changed = {mutant: self.changed(mutant) for mutant in members}
        said = self.prove(sorted({function.path() for functions in changed.values() for function in functions}))
        verdicts = verdicts_of(said)
        wrong = None if verdicts else self.mutant_at(members, ERROR.search(said))
        if wrong:
            wrong.verdict, wrong.reason = NOT_COMPILED, ERROR.search(said)[0]
            self.check([mutant for mutant in members if mutant is not wrong])
            return
        for mutant in members:
            paths = [path for path in verdicts if any(function.is_of(path) for function in changed[mutant])]
            mutant.verdict, mutant.reason = judge(paths, verdicts, said)
            if not paths:
                mutant.reason = next((line for line in said.splitlines() if "error" in line), said[-200:])

    def mutant_at(self, members, error):
        """The mutant whose change is nearest before an error, if the error is in a file that mutants change. A change adds no line."""
        if not error or error[1] not in self.texts:
            return None
        text = self.texts[error[1]]
        changes = [(mutant, old) for mutant in members for file, old, _ in mutant.changes if file == error[1] and old in text]
        before = [(line_of(text, old), mutant) for mutant, old in changes if line_of(text, old) < int(error[2])]
        return max(before, key=lambda place: place[0])[1] if before else None

    def prove(self, paths):
        """What the prover reports about the functions with these paths in the copy, or about all if there is none."""
        words = [*self.crate.command(self.kept), *(word for path in paths for word in ("--only", path))]
        output = {"stdout": subprocess.PIPE, "stderr": subprocess.STDOUT, "text": True, "errors": "replace"}
        return subprocess.run(words, cwd=self.copy, check=False, **output).stdout


def tried(crate, mutants):
    """Tries mutants of a crate, and yields each when it is judged."""
    with tempfile.TemporaryDirectory(prefix="mutants-") as room:
        yield from Trial(crate, mutants, room).run()
