"""Checks that the wrong bodies of tests/planted still fit the sources, by comparing text: nothing is compiled or proved."""

import re

# A message; a line that begins a function, with its indent, and what follows the indent at its end; a name with what is on either side of
# it; the name of a function in a title; what is not code.
MESSAGE = re.compile(r"^ *#\[error\(")
FUNCTION = re.compile(r'^( *)(?:pub(?:\([^)]*\))? )?(?:const )?(?:extern "C" )?fn \w+')
END = re.compile(r"\}|\{\}")
NAME = re.compile(r"(?:(?<=(\.))|(?<=(::)))?\b([A-Za-z_]\w*)\b(?=(::|:|\(|!(?!=))?)")
TITLE = re.compile(r"(?:^|[(,]) *(?:\w+::)?([a-z_]+)(?=$|[ ,]*[(),])")
TEXT = re.compile(r"""b?"(?:[^"\\]|\\.)*"|b?'(?:[^'\\]|\\.)'|//.*""")
# The names that a new text binds: by `let` and `for`, as parameters of a closure, and in the pattern of an arm.
BINDERS = [r"\b(?:let|for)\b([^=;]*?)(?:=|\bin\b)", r"\|([^|]*)\|", r"[({]([^(){}]*)[)}](?:\s+if\s[^=]*)?\s*=>", r"\b(\w+)\s*=>"]

# Names of Rust, of its prelude, and of std that the sources do not have, or only in other files.
RUST = set("""as break const continue else false fn for if in let loop match move mut ref return self Self super true while crate bool char
    str u8 u16 u32 u64 u128 usize i8 i16 i32 i64 i128 isize Some None Ok Err Vec Option Result String
    div_euclid saturating_abs pop_back matches MAX from""".split())


def code_of(text):
    """A text without its strings and comments."""
    return TEXT.sub(" ", text)


def words_of(text):
    """The names in a code."""
    return set(re.findall(r"[A-Za-z_]\w*", code_of(text)))


class Sources:
    """The sources of all crates."""

    def __init__(self, crates):
        """Reads them."""
        self.texts = {path: path.read_text(encoding="utf-8") for path in crates.glob("*/src/**/*.rt")}
        self.files = {path: words_of(text) for path, text in self.texts.items()}
        self.words = set().union(*self.files.values())

    def functions_of(self, folder):
        """The names of the functions of the crate in a folder."""
        return {name for path, text in self.texts.items() if folder in path.parents for name in re.findall(r"\bfn (\w+)", text)}

    def faults(self, body, folder, functions):
        """The faults of a body of the crate in a folder, which has these functions."""
        yield from (f"there is no function {name}" for name in TITLE.findall(body.name.partition(": ")[0]) if name not in functions)
        if all(old.split() == new.split() for _, old, new in body.changes):
            yield "it changes nothing"
        codes = [code_of(new) for _, _, new in body.changes]
        bound = {name for code in codes for binder in BINDERS for part in re.findall(binder, code) for name in words_of(part)}
        for file, old, new in body.changes:
            yield from self.faults_of_change(folder / file, old, new, bound)

    def faults_of_change(self, path, old, new, bound):
        """The faults of a change: its old text is not in the file once, or its new text has names that are not known there."""
        text = path.read_text(encoding="utf-8") if path.is_file() else ""
        if text.count(old) != 1:
            yield f"{path.name} has {old!r} {text.count(old)} times"
        elif old.count("\n") != new.count("\n"):
            yield f"{new!r} has another number of lines than {old!r}"
        elif path in self.texts:
            begin = text.index(old) + len(old) - len(old.lstrip())
            part = part_around(text.splitlines(), text.count("\n", 0, begin))
            if part is None:
                yield f"{old!r} is in no function of {path.name}"
            else:
                known = RUST | words_of(part) | bound
                yield from (f"{path.name} has no {name} for {new!r}" for name in self.unknown_names(new, known, self.files[path]))

    def unknown_names(self, new, known, file):
        """The names in a new text that are not known. A name of a field, a method or a variant can be in any source; one of a function or a
        type must be in the file."""
        for dot, colons, name, behind in NAME.findall(code_of(new)):
            is_item = behind in ("(", "!", "::") or name[0].isupper()
            place = self.words if dot or colons or behind == ":" else file if is_item else set()
            if name not in known | place and not name.startswith("_"):
                yield name


def part_around(lines, row):
    """The message or the function that a row is in, as a text, or None outside any."""
    if MESSAGE.match(lines[row]):
        return lines[row]
    begin = next((k for k in range(row, -1, -1) if FUNCTION.match(lines[k])), len(lines))
    indent = FUNCTION.match(lines[begin])[1] if begin <= row else ""
    end = next((k for k in range(begin, len(lines)) if lines[k].startswith(indent) and END.match(lines[k], len(indent))), -1)
    return "\n".join(lines[begin : end + 1]) if row <= end else None


def check(bodies_of, crates):
    """Prints the bodies that do not fit, and the numbers of those that do and do not. Returns whether all do."""
    sources, passed, failed = Sources(crates), 0, 0
    for crate, bodies in bodies_of.items():
        functions = sources.functions_of(crates / crate)
        for body in bodies:
            wrong = [*sources.faults(body, crates / crate, functions)]
            passed, failed = passed + (not wrong), failed + bool(wrong)
            for fault in wrong:
                print(f"{crate}: {body.name}: {fault}")
    print(f"{passed} passed, {failed} failed")
    return not failed and passed > 0
