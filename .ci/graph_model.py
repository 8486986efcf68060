"""Graphs of packages whose answers are known, and a model that tells such answers by itself, target by target.

The graphs stand in crates/manifest_check/graphs, as `cargo metadata` printed them with paths replaced. The model goes
by the facts that rustc printed, and the relations that the page of the program states. It asks no program.
"""
import collections
import gzip
import hashlib
import json
import re

from conditions import as_line, inside_of_key, read, truth
from crates import ROOT
from features import Build
from targets import known_targets

DATA = ROOT / "crates" / "manifest_check" / "graphs"


def unpacked(name):
    return gzip.decompress((DATA / name).read_bytes()).decode()


def stored(file):
    """The rows of a file of answers: the question, a package, and at how many targets it is, with their sum."""
    for line in unpacked(file).splitlines():
        if not line.startswith("#"):
            *question, package, count, targets = line.split("\t")
            is_sum = targets == "all" or re.fullmatch("[0-9a-f]{16}", targets)
            yield tuple(question), package, (int(count), targets if is_sum else digest(targets.split()))


def graphs():
    """The documents by their names."""
    found = json.loads(unpacked("small.json.gz"))
    for name in ("just", "term"):
        found[name] = json.loads(unpacked(f"{name}.json.gz"))
    return found


def word_of(sides):
    """Returns the word for some sides."""
    return "both" if len(sides) == 2 else next(iter(sides), None)


def sets_of(table):
    return {name: set(lines) for name, lines in table.items()}


# The facts of each target. Who asks of other targets changes what this holds.
TARGETS = sets_of(known_targets())


def at_of(line, asked=None):
    """Returns the targets of a line of JSON: all that are asked for, or those that it names."""
    return frozenset((asked or TARGETS) if line["at"] == "all" else line["at"])


def document_of(packages, deps, **more):
    """Returns a document like those of `cargo metadata`, whose first package is the root. Each package has its `id`, by
    which its dependencies are given."""
    packages = [{"name": it["id"], "version": "1.0.0", "targets": [], **it} for it in packages]
    nodes = [{"id": it["id"], "deps": deps.get(it["id"], [])} for it in packages]
    return {"version": 1, "workspace_members": [packages[0]["id"]], "packages": packages, "resolve": {"nodes": nodes},
            **more}


def dependency(package, condition=None, *kinds, name=None):
    """Returns a dependency of a document, under a condition, of these kinds."""
    rows = [{"kind": kind, "target": condition} for kind in kinds or (None,)]
    return {"name": name or package, "pkg": package, "dep_kinds": rows}


def holds_at(text):
    """The known targets at which a condition is true, or where there is none, all of them."""
    if text is None:
        return frozenset(TARGETS)
    inside = inside_of_key(text)
    return frozenset({text} & TARGETS.keys()) if inside is None else at_tree(read(inside))


def at_tree(tree):
    """The known targets at which a tree is true."""
    everywhere = frozenset(TARGETS)
    at_fact = lambda fact: frozenset(name for name, facts in TARGETS.items() if as_line(fact) in facts)
    return truth(tree, everywhere, frozenset(), at_fact, lambda it: everywhere - it)


Edge = collections.namedtuple("Edge", "on name kind text holds")


class Model:
    """A document, and where its packages are: what the page states, target by target."""

    def __init__(self, document):
        self.packages = {it["id"]: it for it in document["packages"]}
        self.members = document["workspace_members"]
        self.edges = {
            node["id"]: [
                Edge(d["pkg"], d["name"], k["kind"] or "normal", k["target"], holds_at(k["target"]))
                for d in node["deps"] for k in d["dep_kinds"]
            ]
            for node in document["resolve"]["nodes"]
        }

    def is_macro(self, package):
        return any("proc-macro" in target["kind"] for target in self.packages[package]["targets"])

    def steps(self, roots, kinds, host, target, place):
        """The edges that are followed from a place, each with the place that it leads to."""
        package, side = place
        for edge in self.edges[package]:
            if edge.kind not in kinds or (edge.kind == "dev" and package not in roots):
                continue
            of_host = side == "host" or edge.kind == "build"
            if (host if host and of_host else target) in edge.holds:
                yield edge, (edge.on, "host" if of_host or self.is_macro(edge.on) else "target")

    def first(self, root):
        """Returns the place of a root."""
        return root, "host" if self.is_macro(root) else "target"

    def distances(self, roots, kinds, host, target):
        """How far each place is from a root at a target."""
        far = {self.first(root): 0 for root in roots}
        waiting = collections.deque(far)
        while waiting:
            place = waiting.popleft()
            for _, after in self.steps(roots, kinds, host, target, place):
                if after not in far:
                    far[after] = far[place] + 1
                    waiting.append(after)
        return far


def sides_of(model, kinds, host, targets=TARGETS):
    """Returns the targets of packages by their sides, and of dependencies by the sides from and to which they lead."""
    places, led = collections.defaultdict(set), collections.defaultdict(set)
    for target in targets:
        for place in model.distances(model.members, kinds, host, target):
            places[place].add(target)
            for edge, (_, side) in model.steps(model.members, kinds, host, target, place):
                led[place[0], edge.on, edge.kind, edge.holds, place[1], side].add(target)
    return places, led


def digest(names):
    return hashlib.sha256("".join(f"{name}\n" for name in sorted(names)).encode()).hexdigest()[:16]


def built(document, roots, kinds, host, resolver, target, **asked):
    """What Cargo's steps build at a target: of each package and side its features."""
    build = Build(document, roots, kinds, host, resolver, target, holds_at, **asked)
    return {(package, side): frozenset(
        f for f in build.on[build.key(package, side)] if f in build.packages[package]["features"])
        for package, side in build.used()}


# The names and keys whose facts `simple` may be, in the order in which they are tried, as `known_targets` states it.
TRIED = ("unix", "windows", "target_family", "target_os", "target_env", "target_vendor", "target_arch", "target_abi",
         "target_endian", "target_pointer_width")


def having_of(targets):
    """The facts that `simple` may be, in order, each with the targets that have it."""
    facts = sorted({fact for facts in targets.values() for fact in facts if fact.partition("=")[0] in TRIED},
                   key=lambda fact: (TRIED.index(fact.partition("=")[0]), fact.encode()))
    return {fact: frozenset(name for name, facts in targets.items() if fact in facts) for fact in facts}


HAVING = having_of(TARGETS)


def simple_of(holds, is_named=False):
    """The first fact that exactly these targets have, else `not(..)` of the first that exactly the others have, else
    the name of the only one. Of targets that are selected by name, all and none need no fact."""
    if is_named and len(holds) in (0, len(TARGETS)):
        return "cfg(all())" if holds else "cfg(any())"
    for wanted, form in ((holds, "cfg({})"), (frozenset(TARGETS) - holds, "cfg(not({}))")):
        for fact, having in HAVING.items():
            if having == wanted:
                return form.format(fact.replace("=", " = "))
    return next(iter(holds)) if len(holds) == 1 else None
