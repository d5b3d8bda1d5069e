"""The definitions of the repository by name: which one a word means, and what a definition or a contract reaches.

It reads text and knows only as much of the language as the files in specs/ and the clauses of src/ use."""
import pathlib
import re

ROOT = pathlib.Path(__file__).resolve().parent.parent.parent
NAMES = r"(?:\.\{(.*)\}| as (\S+))?"
USE = re.compile(r"(?:unfoldable )?(?:pub )?use Rattle\.([a-z_0-9]+)\.((?:specs|proofs)\.\S+?)" + NAMES + r"$")
GHOST = re.compile(r"^\s*ghost (use Rattle\.[^;]*);", re.M)
BEGIN = re.compile(r"(?:abbrev |unfoldable )?(?:pub )?(?:(?:data|record) (\S+) |([^\s(]\S*) :)")
MEMBER = re.compile(r" +(?:pub )?([^:]+?) : ")
WORD = re.compile(r"[^\s(){}\[\];,.λ]+(?:\.[^\s(){}\[\];,.]+)?")
FUNCTION = re.compile(r'^[ \t]*(?:#\[unsafe\(no_mangle\)\]\s*)?pub\s+(?:extern\s+"C"\s+)?fn\s+(\w+)', re.M)


class Names:
    """What a file's `use` lines name: `imported` has names, `modules` whole files. A type of the code is a pair of crate and name."""

    def __init__(self):
        self.of, self.imported, self.modules = {}, {}, {}

    def take(self, line):
        use = USE.match(line)
        if not use:
            return
        crate, module, names, alias = use.groups()
        if not (ROOT / "crates" / crate).is_dir():
            return  # the toolchain's own
        parts = module.split(".")
        if parts[1] == "declared":
            path = (crate, "::".join(part for part in parts[2:] if part != "TheVariants"))
        else:
            path = f"crates/{crate}/{'/'.join(parts)}.antt"
        if names is None:
            self.modules[alias or parts[-1]] = path
        for part in (names or "").split(", "):
            theirs, _, ours = part.partition(" as ")
            self.imported[ours or theirs] = (path, theirs)


class File(Names):
    """The definitions of a file, each a block of lines: `of` has the one that a name belongs to."""

    def __init__(self, path):
        super().__init__()
        self.lines = (ROOT / path).read_text().splitlines()
        self.blocks, self.around = [], []
        self.head = self.uses = self.blank = 0
        comment, members, begun = [], False, False
        # the modules that stand around a line, with the depth behind each; a module's parameters belong to all that is in it
        modules, heading = [], False
        for whole in self.lines:
            depth = len(whole) - len(whole.lstrip())
            while modules and whole and not heading and depth < modules[-1][0]:
                modules.pop()
            line = whole[modules[-1][0]:] if modules and not heading else whole
            begun = begun or not line.startswith("--")
            if re.match(r"(unfoldable )?(pub )?(use|mod) ", line):
                self.uses += 1
                self.take(line)
            elif not line:
                self.blank += 1
            elif not begun:
                self.head += 1
            elif line.startswith("--"):
                comment.append(line)
            elif heading or re.match(r"module .*", line):
                if not heading:
                    modules.append((depth + 2, []))
                modules[-1][1].append(line)
                heading = not line.endswith(" where")
                comment.append(line)
            else:
                begin = BEGIN.match(line)
                if begin:
                    self.blocks.append([])
                    self.around.append([text for _, lines in modules for text in lines])
                    self.of[begin.group(1) or begin.group(2)] = len(self.blocks) - 1
                    members = bool(begin.group(1))
                elif members and (names := MEMBER.match(line)):
                    for name in names.group(1).split():
                        self.of.setdefault(name, len(self.blocks) - 1)
                self.blocks[-1] += comment + [line]
                comment = []

    def words(self, block):
        for line in self.around[block] + self.blocks[block]:
            yield from WORD.findall(line.split("--")[0])


files = {}
declared = set()


def file(path):
    if path not in files:
        files[path] = File(path)
    return files[path]


def meant(names, word):
    """The file and the name that a word means which is not of this file."""
    module, _, name = word.partition(".")
    if word in names.imported:
        path, name = names.imported[word]
    elif name and module in names.modules:
        path = names.modules[module]
    else:
        return None
    if isinstance(path, tuple):
        declared.add(path)
        return None
    return path, name


def resolve(path, word):
    """The file and the definition that a word of a file means, if it is one of the project's."""
    here = file(path)
    if word in here.of:
        return path, here.of[word]
    there = meant(here, word)
    return resolve(*there) if there else None


def closure(pending):
    """All definitions that some reach, these too."""
    pending, reached = list(pending), set()
    while pending:
        path, block = pending.pop()
        if (path, block) not in reached:
            reached.add((path, block))
            pending += filter(None, (resolve(path, word) for word in file(path).words(block)))
    return reached


def whole_files(path, seen):
    """The files that a file names, and those that they name."""
    if path not in seen:
        seen.add(path)
        there = [p for p, _ in file(path).imported.values()] + list(file(path).modules.values())
        for other in there:
            if not isinstance(other, tuple):
                whole_files(other, seen)
    return seen


def clauses(text, start):
    """The text from a function's name to its body: the braces of its clauses are passed over."""
    depth = 0
    for i in range(start, len(text)):
        if text[i] == "{":
            if depth == 0 and not re.search(r"\b(requires|ensures)(\s+\w+)?\s*$", text[start:i]):
                return text[start:i]
            depth += 1
        elif text[i] == "}":
            depth -= 1
    return text[start:]


def is_open(source):
    """Whether others can name what a file of src/ makes public: each module on the way to it is `pub mod`."""
    top = source.parent
    while top.name != "src":
        top = top.parent
    way = list(source.relative_to(top).with_suffix("").parts)
    if way[-1] == "mod":
        way.pop()
    if way == ["lib"]:
        return True
    parent, folder = top / "lib.rt", top
    for name in way:
        if not parent.exists() or not re.search(rf"^\s*pub mod {name};", parent.read_text(), re.M):
            return False
        folder = folder / name
        parent = folder.with_suffix(".rt") if folder.with_suffix(".rt").exists() else folder / "mod.rt"
    return True


def public_functions():
    """Each function that another crate can call, as (`crate::name`, the definitions that its clauses name)."""
    for source in sorted(ROOT.glob("crates/*/src/**/*.rt")):
        if not is_open(source):
            continue
        text = re.sub(r"//[^\n]*", "", source.read_text())
        names = Names()
        for use in GHOST.findall(text):
            names.take(use)
        crate = source.relative_to(ROOT).parts[1]
        for function in FUNCTION.finditer(text):
            # a parameter's two values are no names
            said = re.sub(r"\.(old|new|now)\b", "", clauses(text, function.end()))
            there = filter(None, (meant(names, word) for word in WORD.findall(said)))
            yield f"{crate}::{function.group(1)}", set(there)
