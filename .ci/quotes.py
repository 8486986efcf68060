"""The contracts that pages quote in blocks of text, and those of the source."""
import re
from dataclasses import dataclass, field

from sources import contracts_in

# The line before a block whose clauses are those of the source, written by `.ci/promises`.
MARK = "<!-- clauses as in the source -->"

WIDTH = 120

# A clause that a page states in words.
PROSE = re.compile(r"\bas above|\bas `|\bthe same\b")


@dataclass
class QuotedClause:
    """A clause on a page, with the numbers of its first and its last line. It may stand for several clauses."""

    names: list
    text: str
    first: int
    last: int


@dataclass
class Quote:
    """A function on a page, with the number of its line."""

    number: int
    name: str
    clauses: list = field(default_factory=list)


def contracts(crate):
    """Returns the clauses of each function of a crate and its parts, by its type and its name, or by its name alone.

    Parts are crates whose names go on after that of the crate.
    """
    found = {}
    for file in sorted(crate.parent.glob(f"{crate.name}*/src/**/*.rt")):
        if not re.fullmatch(rf"{crate.name}(_\w+)?", file.relative_to(crate.parent).parts[0]):
            continue
        for it in contracts_in(file.read_text()):
            if it.name:
                clauses = [(clause.name or None, clause.body) for clause in it.clauses if not clause.is_ghost]
                found.setdefault(f"{it.type}::{it.name}" if it.type else it.name, clauses)
    return found


def quoted(lines):
    """Returns the functions that a page quotes in blocks of text."""
    found, inside, holder = [], False, None
    for number, line in enumerate(lines, 1):
        if line.startswith("```"):
            inside, holder = line.strip() == "```text" and not inside, None
        elif not inside:
            continue
        elif re.match(r"(impl|trait|struct|enum)\b", line):
            names = re.findall(r"\b[A-Z]\w+", line)
            holder = names[-1] if line.startswith("impl") and " for " in line else names[0] if names else None
        elif it := re.match(r"(\s*)fn ([\w:]+)", line):
            found.append(Quote(number, it[2] if "::" in it[2] or not it[1] else f"{holder}::{it[2]}"))
        elif found and (it := re.match(r"\s*ensures ?([\w, ]*):\s?(.*)", line)):
            names = [name.strip() or None for name in it[1].split(",")]
            found[-1].clauses.append(QuotedClause(names, it[2], number, number))
        elif found and found[-1].clauses and re.match(r"\s{4,}\S", line):
            clause = found[-1].clauses[-1]
            clause.text, clause.last = f"{clause.text} {line.strip()}", number
    return found


def words(text):
    """Returns the words of definitions in a clause: with a capital after a small letter, or with an underscore."""
    return set(re.findall(r"\b[A-Z]+[a-z]+[A-Z]\w*|\b[a-z]\w*_\w+", text))


def without_module(name):
    return re.sub(r"^[a-z]\w*::", "", name)


def source_of(name, sources):
    """Returns the source's name of a quoted function. One that is quoted for several types is one of theirs."""
    name = without_module(name)
    return name if name in sources else next((it for it in sources if it.endswith(f"::{name}")), name)


def shortened(line):
    """Returns a clause's line as pages quote it: `S` for `self.now` and `self.old`, `S'` for `self.new`, no `.now`."""
    text = re.sub(r"\bself\.new\b", "S'", re.sub(r"\bself\.(?:now|old)\b", "S", line.strip()))
    return re.sub(r"\b(\w+)\.now\b", r"\1", text)


def clause_lines(name, body, indent):
    """Returns the lines of a quoted clause: one if it fits into that, and else those of the source."""
    pieces = [shortened(line) for line in f"ensures{' ' + name if name else ''}: {body.strip()}".splitlines()]
    whole = indent + " ".join(pieces)
    return [whole] if len(whole) <= WIDTH else [indent + pieces[0], *(f"{indent}  {it}" for it in pieces[1:])]


def marked(lines):
    """Returns the numbers of the lines in marked blocks."""
    found, is_marked = set(), False
    for number, line in enumerate(lines, 1):
        is_marked = line == MARK or is_marked and line != "```"
        if is_marked:
            found.add(number)
    return found


def refreshed(page, lines):
    """Returns the lines of a page, in whose marked blocks the clauses are those of the source.

    Clauses that the page states in words, or for several clauses or types at once, stay.
    """
    within, made = marked(lines), [*lines]
    sources = contracts(page.parent) if within else {}
    for quote in reversed(quoted(lines)):
        clauses, name = quote.clauses, without_module(quote.name)
        if quote.number not in within or name not in sources or not clauses:
            continue
        indent = re.match(" *", lines[clauses[0].first - 1])[0]
        new = {it: clause_lines(it, body, indent) for it, body in sources[name]}
        prose = {it.names[0]: lines[it.first - 1 : it.last] for it in clauses if PROSE.search(it.text)}
        if all(len(it.names) == 1 for it in clauses):
            made[clauses[0].first - 1 : clauses[-1].last] = [line for it in new for line in prose.get(it, new[it])]
            continue
        for it in reversed(clauses):
            if len(it.names) == 1 and it.names[0] in new and it.names[0] not in prose:
                made[it.first - 1 : it.last] = new[it.names[0]]
    return made
