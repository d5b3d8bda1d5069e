"""A QDIMACS file as other tools write it, as a narrowed text: what `vulzhenn narrow` writes.

usage: narrow.py ME NAME [OUT]      the file on standard input

ME is how the command is called, NAME the file's name in sentences. Every repair is said on standard error.
Exit status: 0 the text is written; 3 the file is refused; 2 with a sentence on standard error if it cannot be read or written.
"""
import bz2
import gzip
import io
import lzma
import re
import sys

import facts

# As much as is read of a file, packed or not.
MOST = 1 << 26
# The limits of the narrowed text.
MOST_NAME, MOST_NAMES, MOST_CLAUSES, MOST_ENTRIES, MOST_TEXT = 32767, 128, 2048, 8192, 65536
PACKED = ((b"\x1f\x8b", "gzip", gzip.open), (b"BZh", "bzip2", bz2.open), (b"\xfd7zXZ\x00", "xz", lzma.open))
LABEL = re.compile(rb"c[ ]+name[ ]+([1-9][0-9]{0,9})[ ]+(.*\S)")


class Refused(Exception):
    pass


def many(n, thing):
    return f"{n:,} {thing}" + ("" if n == 1 else "s")


class Repairs:
    """What was mended, each kind once, with how often and in which line first."""

    def __init__(self):
        self.found = {}

    def note(self, what, line=None):
        times, first = self.found.get(what, (0, line))
        self.found[what] = times + 1, first

    def sentences(self):
        for what, (times, line) in self.found.items():
            where = "" if line is None else f" (line {line})" if times == 1 else f" ({times:,} times, first in line {line})"
            yield what + where


def unpacked(data, repairs):
    for start, name, opened in PACKED:
        if data.startswith(start):
            try:
                with opened(io.BytesIO(data)) as file:
                    data = file.read(MOST + 1)
            except (OSError, EOFError, lzma.LZMAError) as error:
                raise Refused(f"it is packed by {name}, and cannot be unpacked ({error})") from error
            repairs.note(f"unpacked: {name}")
    if len(data) > MOST:
        raise Refused(f"it has over {MOST:,} bytes")
    return data


class Formula:
    """V and C as the p line has them, the blocks, the clauses, the comments in front and the labels."""

    def __init__(self, data, repairs):
        self.repairs, self.comments, self.labels = repairs, [], {}
        self.blocks, self.clauses, self.sizes = [], [], None
        self.open, self.kind, self.begun, self.bound = None, None, 0, set()
        if data.startswith(b"\xef\xbb\xbf"):
            repairs.note("dropped: the byte order mark")
            data = data[3:]
        if data.startswith((b"\xff\xfe", b"\xfe\xff")):
            raise Refused("it is in UTF-16: save it as plain text")
        if b"\n" not in data and b"\r" in data:
            repairs.note("made line ends: carriage returns alone")
            data = data.replace(b"\r", b"\n")
        lines = data.split(b"\n")
        if lines[-1]:
            repairs.note("added: the last line end", len(lines))
        else:
            lines.pop()
        for number, line in enumerate(lines, 1):
            if self.line(number, line):
                break
        if self.sizes is None:
            raise Refused("it has no p line")
        if self.open is not None:
            raise Refused(f"line {self.begun}: what begins here has no 0 at its end, so the file may have been cut")

    def line(self, number, line):
        """Takes a line; true if the text ends with it."""
        note = self.repairs.note
        if b"\r" in line:
            note("dropped: a carriage return", number)
            line = line.replace(b"\r", b" ") if line.rstrip(b"\r").count(b"\r") else line.rstrip(b"\r")
        if b"\t" in line or b"\v" in line or b"\f" in line:
            note("made a space: a tab", number)
            line = re.sub(rb"[\t\v\f]", b" ", line)
        if line != line.strip(b" "):
            note("dropped: blanks at an end of a line", number)
            line = line.strip(b" ")
        if not line:
            note("dropped: an empty line", number)
        elif line.startswith(b"c"):
            self.comment(number, line)
        elif line.startswith(b"p"):
            self.p_line(number, line)
        elif self.sizes is None:
            raise Refused(f"line {number}: before the p line only comments may stand")
        elif line.startswith(b"%"):
            note("dropped: the % at the end, and what follows", number)
            return True
        else:
            self.tokens(number, line)
        return False

    def comment(self, number, line):
        label = LABEL.fullmatch(line)
        if label:
            self.labels[int(label[1])] = label[2]
            if self.sizes is not None:
                self.repairs.note("moved to the front: a label", number)
        elif self.sizes is None:
            self.comments.append(line)
        else:
            self.repairs.note("dropped: a comment behind the p line", number)

    def p_line(self, number, line):
        if self.sizes is not None:
            raise Refused(f"line {number}: this is a second p line")
        if re.match(rb"p +gate( |$)", line):
            raise Refused(f"line {number}: this is a gate list, and QDIMACS is wanted")
        words = line.split()
        if len(words) != 4 or words[:2] != [b"p", b"cnf"] or not all(re.fullmatch(rb"\+?[0-9]{1,18}", word) for word in words[2:]):
            raise Refused(f"line {number}: the p line is p cnf V C")
        self.sizes = int(words[2]), int(words[3])
        if [b"%d" % size for size in self.sizes] != words[2:]:
            self.repairs.note("mended: a number with + or leading zeros", number)

    def tokens(self, number, line):
        """Takes the words of a line: prefix lines and clauses, each up to its 0."""
        note = self.repairs.note
        ended = 0
        for word in line.split():
            if word in (b"a", b"e"):
                if self.open is not None:
                    raise Refused(f"line {number}: {word.decode()} stands before the 0 of what begins in line {self.begun}")
                if self.clauses:
                    raise Refused(f"line {number}: a prefix line behind a clause")
                self.open, self.kind, self.begun = [], word.decode(), number
                continue
            if not re.fullmatch(rb"[+-]?[0-9]{1,18}", word):
                shown = repr(word[:20])[2:-1]
                raise Refused(f"line {number}: '{shown}' is no number")
            n = int(word)
            if b"%d" % n != word:
                if n == 0:
                    raise Refused(f"line {number}: '{word.decode()}' is neither a name nor the 0 at an end")
                note("mended: a number with + or leading zeros", number)
            if self.open is None:
                self.open, self.kind, self.begun = [], None, number
            if n != 0:
                if self.kind and n < 0:
                    raise Refused(f"line {number}: a prefix line has the name {n}, with a sign")
                self.open.append(n)
                continue
            if self.begun != number:
                note("joined: a prefix line or clause over several lines", self.begun)
            ended += 1
            if ended == 2:
                note("parted: several clauses in one line", number)
            self.close(number)
        if ended and self.open is not None and self.begun == number:
            note("parted: several clauses in one line", number)

    def close(self, number):
        found, self.open = self.open, None
        if not self.kind:
            self.clauses.append(found)
        elif not found:
            self.repairs.note("dropped: a prefix line without names", number)
        else:
            names = list(dict.fromkeys(found))
            if len(names) < len(found):
                self.repairs.note("dropped: a name that stands twice in one block", number)
            twice = next((name for name in names if name in self.bound), None)
            if twice is not None:
                raise Refused(f"line {number}: the name {twice} is bound twice")
            self.bound.update(names)
            self.blocks.append((self.kind, names))


def fit(formula):
    """Drops names that stand in no clause, and names the others anew, where the limits want it. Sets V and C."""
    note = formula.repairs.note
    used = {abs(z) for clause in formula.clauses for z in clause}
    bound = [name for _, block in formula.blocks for name in block]
    if len(set(bound) | used) > MOST_NAMES or max([*bound, *used, 0]) > MOST_NAME:
        idle = len(set(bound) - used)
        if idle:
            formula.blocks = [(kind, [name for name in block if name in used]) for kind, block in formula.blocks]
            formula.blocks = [(kind, block) for kind, block in formula.blocks if block]
            note(f"dropped from the prefix: {many(idle, 'name')} that no clause has")
            bound = [name for name in bound if name in used]
    names = sorted(set(bound) | used)
    if len(names) > MOST_NAMES:
        raise Refused(f"{many(len(names), 'name')} stand in clauses, and at most {MOST_NAMES} may")
    variables = formula.sizes[0]
    if names and names[-1] > MOST_NAME:
        rename(formula, {name: place for place, name in enumerate(names, 1)})
        names = list(range(1, len(names) + 1))
        variables = len(names)
    highest = names[-1] if names else 0
    fitting = min(max(variables, highest), MOST_NAME)
    if fitting != formula.sizes[0]:
        note(f"mended: V is {fitting}, and was {formula.sizes[0]}")
    if len(formula.clauses) != formula.sizes[1]:
        note(f"mended: C is {len(formula.clauses)}, as many as there are, and was {formula.sizes[1]}")
    return fitting


def rename(formula, new):
    """Other names for all; an unknown without a label gets its old name as one."""
    formula.repairs.note(f"named anew, from 1 to {len(new)}: the names, since some are above {MOST_NAME:,}; labels tell the old ones")
    formula.blocks = [(kind, [new[name] for name in block]) for kind, block in formula.blocks]
    formula.clauses = [[new[z] if z > 0 else -new[-z] for z in clause] for clause in formula.clauses]
    formula.labels = {place: formula.labels.get(name, b"%d" % name) for name, place in new.items()}


def written(formula):
    variables = fit(formula)
    entries = sum(len(clause) + 1 for clause in formula.clauses)
    if len(formula.clauses) > MOST_CLAUSES:
        raise Refused(f"it has {many(len(formula.clauses), 'clause')}, and at most {MOST_CLAUSES:,} may be there")
    if entries > MOST_ENTRIES:
        raise Refused(f"its clauses have {many(entries, 'entry').replace('entrys', 'entries')} with their zeros, and at most {MOST_ENTRIES:,} may be there")
    body = b"p cnf %d %d\n" % (variables, len(formula.clauses))
    body += b"".join(b"%s %s 0\n" % (kind.encode(), b" ".join(b"%d" % name for name in block)) for kind, block in formula.blocks)
    body += b"".join(b"".join(b"%d " % z for z in clause) + b"0\n" for clause in formula.clauses)
    labels = b"".join(b"c name %d %s\n" % (name, label) for name, label in sorted(formula.labels.items()) if name <= MOST_NAME)
    comments = b"".join(line + b"\n" for line in formula.comments)
    for front, dropped in ((comments + labels, None), (labels, "the comments, for the text is too long with them"), (b"", "comments and labels, for the text is too long with them")):
        if len(front) + len(body) <= MOST_TEXT:
            if dropped:
                formula.repairs.note(f"dropped: {dropped}")
            return front + body
    raise Refused(f"the text has {len(body):,} bytes without its comments, and at most {MOST_TEXT:,} may be there")


def main(words):
    me, name = words[:2]
    try:
        data = sys.stdin.buffer.read(MOST + 1)
    except OSError as error:
        raise facts.Trouble(f"cannot read {name} to its end ({error.strerror})") from error
    repairs = Repairs()
    try:
        formula = Formula(unpacked(data, repairs), repairs)
        text = written(formula)
    except Refused as refused:
        print(f"vulzhenn narrow: {name} is refused: {refused}", file=sys.stderr)
        return 3
    for sentence in repairs.sentences():
        print(f"vulzhenn narrow: {sentence}", file=sys.stderr)
    facts.write(words[2] if len(words) > 2 else "", text)
    return 0


facts.ended("narrow", main)
