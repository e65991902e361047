"""The pages of wrong bodies: reads them, applies one to a copy of the repository, and tells what `rt must-fail` says of them.

A section is a heading, maybe a line `fails: CRATE TEST..`, `fails: test_plays TABLE..`, `fails: flashrec TEST..` of
.ci/tests/outputs.py or `fails: test_die_plays HISTORY..`, and the lines of an edit between two fences: `file:` names a
file of the crate, and each `old:` text, which stands there once, becomes the `new:` text below it."""

import pathlib
import re
import sys


def sections(page):
    """The sections of a page: (name, words after `fails:`, lines of the edit)."""
    name, fails, lines, fenced = None, [], [], False
    for line in page.read_text().splitlines():
        if line.startswith("## "):
            if name:
                yield name, fails, lines
            name, fails, lines, fenced = line[3:], [], [], False
        elif line.startswith("```"):
            fenced = not fenced
        elif fenced:
            lines.append(line)
        elif line.startswith("fails: "):
            fails = line.split()[1:]
    if name:
        yield name, fails, lines


def apply(crate, lines):
    """Applies an edit to the crate in this folder."""
    path, old = None, None
    for line in lines:
        if line.startswith("file: "):
            path = crate / line[6:]
        elif line.startswith("old: "):
            old = line[5:]
        elif line.startswith("new: "):
            text = path.read_text()
            if text.count(old) != 1:
                sys.exit(f"{path}: this text stands there {text.count(old)} times: {old}")
            path.write_text(text.replace(old, line[5:]))


# What `rt must-fail` says of an edit, from the first that fits: how it is told here, and whether it shows what it has to.
VERDICTS = [
    (r"NOT REFUSED", "NOT REFUSED", False),
    (r"BAD EDIT", "can't be read", False),
    (r"NOT TRIED", "not tried", False),
    (r"refused, .*only because a proof file names", "refused by a missing name alone", False),
    (r"refused, .*only by a limit", "stopped at a limit of the prover", True),
    (r"refused, ", "refused by its goal", True),
]


def tell(lines):
    """Copies what `rt must-fail` says, and sums it up: a body that is refused by its goal, and one that is refused only because
    a proof names what the edit took away, which shows nothing of the contract. True where each shows what it has to."""
    told = {words: [] for _, words, _ in VERDICTS}
    for line in lines:
        print(line, end="", flush=True)
        said = re.search(r"must-fail (\S+)\.edit: (.*)", line)
        if said:
            words = next(words for form, words, _ in VERDICTS if re.match(form, said[2]))
            told[words].append(said[1])
    for _, words, shows in VERDICTS:
        if told[words]:
            print(f"{words}: {len(told[words])}" + ("" if shows else ": " + ", ".join(told[words])))
    return any(told.values()) and not any(told[words] for _, words, shows in VERDICTS if not shows)


def main():
    words = sys.argv[1:]
    if words[0] == "tell":
        sys.exit(0 if tell(sys.stdin) else 1)
    page = pathlib.Path(words[1])
    if words[0] == "list":
        for name, fails, _ in sections(page):
            print(name, *fails)
    elif words[0] == "edit":
        for name, _, lines in sections(page):
            pathlib.Path(words[2], name + ".edit").write_text("\n".join(lines) + "\n")
    elif words[0] == "apply":
        for name, _, lines in sections(page):
            if name == words[2]:
                apply(page.parent.parent, lines)


if __name__ == "__main__":
    main()
