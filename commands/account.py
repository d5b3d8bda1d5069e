"""The account of a decision as one JSON object: what `vulzhenn account --json` writes.

usage: account.py VULZHENN FORM NAME VERSION [OUT]      the text on standard input; FORM is empty, or gates to insist on a gate list

Exit status: 0 for a decision, 3 for a refused text; 2 with a sentence on standard error.
"""
import json
import sys

import facts

WORDS = {0: "false", 1: "true", 2: "undecided: the limit of rounds", 3: "undecided: no room for universal rows", 4: "undecided: no room for existential rows"}


def told(account, given):
    """The object of a decision."""
    def named(places):
        return [{"name": account.names[i], **({"label": given[account.names[i]]} if account.names[i] in given else {})} for i in places]

    return {
        "answer": account.answer,
        "meaning": WORDS[account.answer],
        "value": {1: True, 0: False}.get(account.truth),
        "variables": account.variables,
        "clauses": account.clauses,
        "rounds": account.rounds,
        "prefix": [{"kind": {"a": "universal", "e": "existential"}[kind], "unknowns": named(places)} for kind, places in account.blocks()],
        "opening": account.opening,
        "rows": {side: [{"round": mark, "returns": count, "values": bits} for mark, count, bits in rows] for side, rows in account.rows.items()},
    }


def main(words):
    command, form, name, version = words[:4]
    try:
        text = facts.Text(sys.stdin.buffer)
    except OSError as error:
        raise facts.Trouble(f"cannot read {name or 'standard input'} to its end ({error.strerror})") from error
    printed, said = facts.ask(command, ["account", *(["--gates"] if form else [])], text.start)
    account = facts.Account(printed)
    about = {"engine": version, "text": name or None, "form": "gates" if form or facts.is_gates(text.start) else "clauses", "bytes": text.size, "sha256": text.sum}
    if account.refused:
        about["refused"] = {"cause": account.refused[0], "line": account.refused[1], "words": said}
    else:
        about.update(told(account, facts.labels(facts.comments(text.start))[0]))
    facts.write(words[4] if len(words) > 4 else "", (json.dumps(about, indent=1, ensure_ascii=False) + "\n").encode("utf-8", "replace"))
    return 3 if account.refused else 0


facts.ended("account", main)
