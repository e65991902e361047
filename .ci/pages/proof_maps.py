"""What `.ci/docs` reads off proofs: on which proof modules a law rests, in layers, and which of them carry an induction."""
import functools
import re

# What an induction goes over, by the type of the argument that its clauses take apart. All but the slots of a schedule and
# what is asked of a die are logs or lives, which have a mark of their own.
OVER = {"Log": "log", "Lives": "lives", "List Calls": "lives", "List (List Move)": "lives",
        "Slots": "slots", "List Event": "events", "Calls": "calls", "List (ℕ × Event)": "calls", "List Move": "moves"}
MARKS = {"log": "●", "lives": "●"}
OTHER_MARK = "○"
# A module without a mark isn't shown where it has fewer than `FEW_LINES` lines, or where `MANY_IMPORTS` modules of the
# proof import it.
FEW_LINES, MANY_IMPORTS = 100, 6
USE = re.compile(r"^\s*(?:pub )?use Rattle\.(\w+)\.proofs\.([\w.'-]+?)(?:\.\{(.*)\}| as .*)?\s*$", flags=re.M)
SIGNATURE = re.compile(r"( *)(?:abbrev |unfoldable |postulate )?(?:pub )?([\w'-]+) : (.*)")
# A property of logs, which an induction of them is over.
PROPERTY = re.compile(r"(?:Log|Lives) → (?:.* → )?Type\b")


class Module:
    """A module of proofs: the modules of proofs that it imports, what its first comment says, and its text."""

    def __init__(self, text):
        self.text, self.size = text, len(text.splitlines())
        self.uses = [(crate, "/".join(path.split(".")), names) for crate, path, names in USE.findall(text)]
        head = re.match(r"(?:--[^\n]*\n)+", text)
        self.words = " ".join(line.lstrip("- ") for line in head[0].splitlines()) if head else "The function's own goals."

    @functools.cached_property
    def definitions(self):
        return list(definitions(self.text))

    @functools.cached_property
    def principles(self):
        """The definitions that prove any property of a log by induction, each with what it goes over."""
        return {name: OVER[kind] for name, signature, clauses in self.definitions if PROPERTY.search(signature)
                for kind in taken_apart(name, signature, clauses) if kind in OVER}


def read_modules(crates):
    """By crate and name each module of proofs of the repository."""
    found = {}
    for path in sorted(crates.glob("*/proofs/**/*.antt")):
        crate = path.relative_to(crates).parts[0]
        found[crate, "/".join(path.relative_to(crates / crate / "proofs").with_suffix("").parts)] = Module(path.read_text())
    return found


def below(modules, key):
    """The modules of the repository that one imports."""
    return dict.fromkeys((crate, name) for crate, name, _ in modules[key].uses if (crate, name) in modules and (crate, name) != key)


def layers(modules, roots):
    """Each module on which the roots rest, with its layer: below all that import it. The roots are in the first."""
    ready, seen = [], set()

    def visit(key):
        if key not in seen:
            seen.add(key)
            for other in below(modules, key):
                visit(other)
            ready.append(key)

    for root in roots:
        visit(root)
    found = {}
    for key in reversed(ready):
        found.setdefault(key, 0)
        for other in below(modules, key):
            found[other] = max(found.get(other, 0), found[key] + 1)
    return found


# Inductions

def words_of(text):
    """The words of a text, where what stands in brackets is one word."""
    found, word, depth = [], "", 0
    for letter in text:
        depth += (letter in "([{") - (letter in ")]}")
        if letter.isspace() and depth == 0:
            found += [word] if word else []
            word = ""
        else:
            word += letter
    return found + ([word] if word else [])


def argument_types(signature):
    """The types of the arguments of a definition, in order, but for those in braces."""
    groups = [[]]
    for word in words_of(signature):
        if word == "→":
            groups.append([])
        else:
            groups[-1].append(word)
    found = []
    for group in groups[:-1]:
        named = [re.match(r"\(([\w' -]+) : (.*)\)$", word, flags=re.S) for word in group if not word.startswith("{")]
        if all(named):
            found += [name[2] for name in named for _ in name[1].split()]
        else:
            found.append(" ".join(group))
    return found


def definitions(text):
    """The outermost definitions of a module, and those in its modules with parameters: name, signature, clauses."""
    lines = [re.sub(r"\s--.*", "", line) for line in text.split("\n") if not line.strip().startswith("--")]
    while lines:
        begin = SIGNATURE.match(lines.pop(0))
        if not begin:
            continue
        indent, name, signature, clauses = len(begin[1]), begin[2], [begin[3]], []
        while lines:
            line = lines[0]
            inner = len(line) - len(line.lstrip())
            is_clause = inner == indent and re.match(re.escape(name) + r"(?= |$)", line.strip())
            if line.strip() and inner <= indent and not is_clause and not line.strip().startswith("unfolding"):
                break
            if is_clause:
                clauses.append([])
            (clauses[-1] if clauses else signature).append(lines.pop(0))
        yield name, " ".join(" ".join(signature).split()), ["\n".join(clause) for clause in clauses]


def taken_apart(name, signature, clauses):
    """The types of the lists that a definition takes apart, head by head, as it calls itself."""
    found, heads = [], []
    for clause in clauses:
        words = words_of(clause)
        at = words.index("=") if "=" in words else len(words)
        heads.append([word for word in words[1:at] if not word.startswith("{")])
    calls = [head for head, clause in zip(heads, clauses)
             if len(re.findall(r"(?<![\w'.-])" + re.escape(name) + r"(?![\w'-])", clause)) > 1]
    for place, kind in enumerate(argument_types(signature)):
        if any(head[place:place + 1] == ["[]"] for head in heads) and any(
                re.match(r"\(.* ∷ .*\)$", " ".join(head[place:place + 1]), flags=re.S) for head in calls):
            found.append(kind)
    return found


def inductions(modules, key):
    """What the definitions of a module go over by induction, their own or by a principle, with their names."""
    module = modules[key]
    cited = dict(module.principles)
    for crate, name, names in module.uses:
        known = modules[crate, name].principles if (crate, name) in modules else {}
        for imported in names.split(","):
            first, _, other = imported.strip().partition(" as ")
            if first in known:
                cited[other or first] = known[first]
    found = {}
    for name, signature, clauses in module.definitions:
        own = [OVER[kind] for kind in taken_apart(name, signature, clauses) if kind in OVER]
        cites = [over for principle, over in cited.items() if principle != name
                 and any(re.search(r"(?<![\w'.-])" + re.escape(principle) + r"(?![\w'-])", clause) for clause in clauses)]
        for over in own + cites:
            names = found.setdefault(over, [])
            names += [name] if name not in names else []
    return found


# The map

def cut(text, most):
    """A text of at most a number of letters: a longer one ends at a mark, else at a word, and with two dots."""
    if len(text) <= most:
        return text
    front = text[:most - 3]
    marks = [at for at in (front.rfind(mark) for mark in ("; ", ": ", ", ")) if at > most // 2]
    return front[:max(marks) if marks else front.rfind(" ")].rstrip(",;:") + " .."


def shown(modules, found, keys):
    """Which of these modules of a proof are shown, with what they carry."""
    imports = {}
    for key in found:
        for other in below(modules, key):
            imports[other] = imports.get(other, 0) + 1
    carried = {key: inductions(modules, key) for key in keys}
    return {key: carried[key] for key in keys
            if carried[key] or (modules[key].size >= FEW_LINES and imports.get(key, 0) < MANY_IMPORTS)}


def picture(modules, own, found, kept, width=120):
    """A line a module, indented by its layer: its mark, name, lines and words, and its inductions, if need be below."""
    order = sorted(kept, key=lambda key: (found[key], key[0] != own, key))
    depths = sorted({found[key] for key in order})
    names = {key: "  " * depths.index(found[key]) + (key[1] if key[0] == own else "/".join(key)) for key in order}
    room = max(map(len, names.values()), default=0)
    for key in order:
        over = sorted(kept[key], key=list(dict.fromkeys(OVER.values())).index)
        mark = MARKS.get(over[0], OTHER_MARK) if over else " "
        carried = "; ".join(f"{one}: {', '.join(kept[key][one][:3])}{', ..' if len(kept[key][one]) > 3 else ''}" for one in over)
        line = f"{mark} {names[key]:<{room}} {modules[key].size:>4}  "
        words = cut(modules[key].words, width - len(line))
        apart = "\n" + " " * len(line) if len(line) + len(words) + len(carried) + 3 > width else " "
        yield from (line + words + (f"{apart}[{carried}]" if carried else "")).split("\n")
