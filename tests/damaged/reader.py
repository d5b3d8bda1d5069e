"""A reader of the narrowed QDIMACS, written apart with regular expressions, and texts with damage for it and the program."""
import re
import subprocess

NUMBER = rb"(?:0|[1-9][0-9]{0,4})"
NAME = rb"[1-9][0-9]{0,4}"
P = re.compile(rb"p +cnf +(" + NUMBER + rb") +(" + NUMBER + rb")")
PREFIX = re.compile(rb"[ae](?: +" + NAME + rb")+ +0")
CLAUSE = re.compile(rb"(?:-?" + NAME + rb" +)*0")


def read(text):
    """(number, line) of the refusal, or (0, V, C)."""
    if len(text) > 65536:
        return 9, 0
    lines = text.split(b"\n")
    ended = lines.pop() == b""
    if not ended:
        lines = text.split(b"\n")
    v = c = None
    bound, free, clauses, entries = set(), set(), 0, 0
    for at, line in enumerate(lines, 1):
        whole = ended or at < len(lines)
        if v is None:
            if not whole:
                return 10, at
            if line.startswith(b"c"):
                continue
            p = P.fullmatch(line)
            if not p:
                return 10, at
            v, c = int(p[1]), int(p[2])
            if v > 32767 or c > 2048:
                return 11, at
        elif whole and clauses == 0 and PREFIX.fullmatch(line):
            for name in map(int, line.split()[1:-1]):
                if name > v:
                    return 11, at
                if name in bound:
                    return 12, at
                if len(bound) == 128:
                    return 14, at
                bound.add(name)
        elif whole and CLAUSE.fullmatch(line):
            if clauses == c:
                return 14, at
            clauses += 1
            for literal in map(int, line.split()):
                if abs(literal) > v:
                    return 11, at
                if literal and abs(literal) not in bound | free:
                    if len(bound | free) == 128:
                        return 14, at
                    free.add(abs(literal))
                if entries == 8192:
                    return 14, at
                entries += 1
        else:
            return 10, at
    if v is None:
        return 10, len(lines) + 1
    if clauses < c:
        return 14, len(lines) + 1
    return 0, v, c


def text(rng):
    n = rng.randint(1, 6)
    names = rng.sample(range(1, 12), n)
    clauses = rng.randint(0, 4)
    lines = ["c " + rng.choice(("", "p cnf 1 1", "\0\r"))] * rng.randint(0, 2) + [f"p cnf {rng.randint(9, 12)} {clauses}"]
    bound = names[rng.choice((0, 0, 0, rng.randint(1, n))):]
    for name in bound:
        lines.append(f"{rng.choice('ae')} {name} 0")
    for _ in range(clauses):
        lines.append(" ".join([str(rng.choice(names) * rng.choice((1, -1))) for _ in range(rng.randint(0, 3))] + ["0"]))
    return ("\n".join(lines) + "\n").encode()


PIECES = [b"", b" ", b"  ", b"0", b"1", b"7", b"-", b"-0", b"00", b"01", b"\n", b"\r", b"\t", b"\0", b"a", b"e", b"c", b"p", b"100000",
          b"99999", b"32768", b"32767", b"2049", b" 0\n", b"0\n", b"a 1 0\n", b"1 0\n", b"c\n", b"p cnf 1 1\n", b"\xff"]


def damaged(rng):
    """A text with up to three places where bytes are taken out, put in or repeated."""
    given = text(rng)
    for _ in range(rng.randint(0, 3)):
        at = rng.randint(0, len(given))
        to = min(len(given), at + rng.choice((0, 0, 1, 1, 2, 5)))
        put = rng.choice(PIECES) if rng.random() < 0.8 else given[at:at + 9]
        given = given[:at] + put + given[to:]
    return given


def fault(given, verdicts="0|1"):
    """What is wrong with the program's output, or None. A text that is read must get one of the verdicts."""
    printed = subprocess.run(["crates/vulzhenn/out/vulzhenn"], input=given, capture_output=True, timeout=60).stdout.decode()
    wanted = read(given)
    if wanted[0]:
        right = printed == "c refused {} {}\n".format(*wanted)
    else:
        right = re.fullmatch(r"s cnf (?:{}) {} {}\nc rounds \d+ universal \d+ existential \d+\n".format(verdicts, *wanted[1:]), printed)
    return None if right else f"{given!r}: wanted {wanted}, got {printed!r}"
