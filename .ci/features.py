"""What a build of Cargo uses at one target: its feature resolver, step by step, and then its dependencies.

It follows the steps of `core/resolver/features.rs` and `ops/tree/graph.rs` of Cargo 1.95.0, for one target at a time,
on what `cargo metadata` printed. `manifest_check graph --resolver` answers for all targets at once, and is compared
with this.
"""
import collections

Declared = collections.namedtuple("Declared", "name to kind optional default features holds")


LIBRARIES = {"lib", "rlib", "dylib", "cdylib", "staticlib", "proc-macro"}


def library_of(package):
    """Returns the target that is the library of a package, or None."""
    return next((it for it in package["targets"] if LIBRARIES & {*it["kind"]}), None)


def library_name(package):
    """Returns the name by which other packages' code calls a package."""
    return (library_of(package) or package)["name"].replace("-", "_")


def is_edge_of(edge, declared, to):
    """Returns whether an edge to this package is the one of a declared dependency."""
    called = (declared["rename"] or library_name(to)).replace("-", "_")
    return declared["name"] == to["name"] and called == edge["name"] and any(
        (row["kind"], row["target"]) == (declared["kind"], declared["target"]) for row in edge["dep_kinds"])


def has_root_package(document):
    """Returns whether the manifest of the workspace is that of a package."""
    manifest = document.get("workspace_root", "") + "/Cargo.toml"
    return any(package["manifest_path"] == manifest for package in document["packages"])


class Build:
    """What is built for a target on a host. `holds_at` returns the targets of a condition."""

    def __init__(self, document, roots, kinds, host, resolver, target, holds_at, features=(), default=True,
                 all_on=False):  # fmt: skip
        self.packages = {it["id"]: it for it in document["packages"]}
        self.roots, self.kinds, self.host, self.target = roots, kinds, host, target
        self.is_new = resolver != 1
        self.holds_at = holds_at
        self.declared = {node["id"]: self.declared_of(node) for node in document["resolve"]["nodes"]}
        self.on = collections.defaultdict(set)
        self.turned_on = collections.defaultdict(set)
        self.deferred = collections.defaultdict(set)
        self.processed = set()
        # Resolver 1 gives the features to the package of the current directory, and makes it active.
        self.current = None if self.is_new or not has_root_package(document) else document["resolve"]["root"]
        self.active = [*roots, *([self.current] if self.current and self.current not in roots else [])]
        for root in self.active:
            table = self.packages[root]["features"]
            named = [f for f in self.selected_of(root, features) if f in table or "/" in f]
            selected = list(table) if all_on else named
            selected += ["default"] if (default or root != (self.current or root)) and "default" in table else []
            self.activate(root, "target", selected)
            if self.is_macro(root):
                self.activate(root, "host", selected)

    def selected_of(self, root, features):
        """Returns the features that are selected of a root by their names."""
        if not self.current:
            return features
        others = {self.packages[it]["name"] for it in self.roots if it != self.current}
        divided = [f.replace("?/", "/").split("/", 1) for f in features]
        of_others = [it for it in divided if len(it) == 2 and it[0] in others]
        if root != self.current:
            return [f for name, f in of_others if name == self.packages[root]["name"]]
        return [f for f, it in zip(features, divided) if it not in of_others]

    def is_macro(self, package):
        return any("proc-macro" in target["kind"] for target in self.packages[package]["targets"])

    def declared_of(self, node):
        """Returns the declared dependencies of a package, each with the package that it resolves to."""
        found = []
        for one in self.packages[node["id"]]["dependencies"]:
            for edge in node["deps"]:
                # A package calls itself by its own name.
                name = one["rename"] if edge["pkg"] != node["id"] else None
                if is_edge_of(edge, {**one, "rename": name}, self.packages[edge["pkg"]]):
                    found.append(Declared(
                        one["rename"] or one["name"], edge["pkg"], one["kind"] or "normal", one["optional"],
                        one["uses_default_features"], one["features"], self.holds_at(one["target"])))
        return found

    def leads_to(self, package, side, one):
        """Returns the side that a dependency leads to, or None if its condition is false."""
        of_host = side == "host" or one.kind == "build"
        if (self.host if of_host else self.target) not in one.holds:
            return None
        return "host" if of_host or self.is_macro(one.to) else "target"

    # ---- the feature resolver

    def dependencies(self, package, side):
        for one in self.declared[package]:
            if one.kind == "dev" and package not in self.active:
                continue
            if not self.is_new:
                yield one, "target"
            elif one.kind != "dev" or "dev" in self.kinds:
                to = self.leads_to(package, side, one)
                if to:
                    yield one, to

    def key(self, package, side):
        return package, side if self.is_new else "target"

    def activate(self, package, side, features):
        for feature in features:
            self.turn_on(package, side, feature)
        if self.key(package, side) in self.processed:
            return
        self.processed.add(self.key(package, side))
        for one, to in self.dependencies(package, side):
            if not one.optional:
                self.activate(one.to, to, self.features_for(one))

    def features_for(self, one):
        table = self.packages[one.to]["features"]
        return one.features + (["default"] if one.default and "default" in table else [])

    def turn_on(self, package, side, word):
        if word.startswith("dep:"):
            self.turn_on_dependency(package, side, word.removeprefix("dep:"))
        elif "/" in word:
            name, feature = word.split("/", 1)
            self.turn_on_of(package, side, name.removesuffix("?"), feature, name.endswith("?"))
        elif word not in self.on[self.key(package, side)]:
            self.on[self.key(package, side)].add(word)
            for member in self.packages[package]["features"].get(word, ()):
                self.turn_on(package, side, member)

    def turn_on_dependency(self, package, side, name):
        self.turned_on[self.key(package, side)].add(name)
        waiting = self.deferred.pop((self.key(package, side), name), ())
        for one, to in self.dependencies(package, side):
            if one.name == name:
                for feature in waiting:
                    self.turn_on(one.to, to, feature)
                self.activate(one.to, to, self.features_for(one))

    def turn_on_of(self, package, side, name, feature, is_weak):
        for one, to in self.dependencies(package, side):
            if one.name != name:
                continue
            if one.optional:
                if is_weak and name not in self.turned_on[self.key(package, side)]:
                    self.deferred[self.key(package, side), name].add(feature)
                    continue
                self.turn_on_dependency(package, side, name)
                if not is_weak:
                    self.turn_on(package, side, name)
            self.turn_on(one.to, to, feature)

    # ---- the dependencies that are used

    def edges(self, package, side):
        """Yields the dependencies that a package uses if it is built for a side, each with the side it leads to."""
        for one in self.declared[package]:
            if one.kind not in self.kinds or (one.kind == "dev" and package not in self.roots):
                continue
            if one.optional and one.name not in self.turned_on[self.key(package, side)]:
                continue
            to = self.leads_to(package, side, one)
            if to:
                yield one, to

    def used(self):
        """Returns the packages that are built, each with its side."""
        found = {(root, "host" if self.is_macro(root) else "target") for root in self.roots}
        waiting = list(found)
        while waiting:
            package, side = waiting.pop()
            for one, to in self.edges(package, side):
                if (one.to, to) not in found:
                    found.add((one.to, to))
                    waiting.append((one.to, to))
        return found
