"""Divides a module of LLVM into parts that are compiled beside each other.

Functions that do the same are one function. They differ in their names alone, in the names of constants of the same
value, and in those of functions that do the same: generic functions for types that are laid out alike are so.

A small function is in each part that uses it, so that it can be inlined there, and a large one is in one part. What
nothing uses is in none. Parts are made of functions in the order of their names, so that those of one crate, which call
each other most, stay together.
"""
import re

# A function that is at most so many characters long is a small one.
SMALL = 2500

HEADER = re.compile(r'define (?P<internal>internal )?(?P<type>[^@\n]*)@(?P<name>"[^"]*"|[\w.]+)'
                    r"\((?P<parameters>[^\n]*)\)(?P<attributes>[^\n]*) \{\n")  # fmt: skip
USE = re.compile(r'@("[^"]*"|[\w.]+)')
COMMENT = re.compile(r"^(?:;.*)?\n", re.M)
CONSTANT = re.compile(r"^@(\S+) = (private unnamed_addr constant .*)", re.M)

# The line that ends a function.
END = "\n}\n"


class Function:
    """A function of a module: its header, what is between the names that it uses, and these names, its own first."""

    def __init__(self, text, new_names):
        header = HEADER.match(text)
        self.is_internal = header["internal"] is not None and header["name"] not in new_names
        self.parameters, self.type, self.attributes = header["parameters"], header["type"], header["attributes"]
        self.between, self.names = USE.split(text)[::2], [new_names.get(it, it) for it in USE.findall(text)]
        self.name, self.size = self.names[0], len(text)
        self.between[0] = "define " + self.type

    def declared(self):
        """The declaration of a function that another part defines."""
        parameters, hidden = re.sub(r" %a\d+", "", self.parameters), "hidden " if self.is_internal else ""
        return f"declare {hidden}{self.type}@{self.name}({parameters}){self.attributes}\n"

    def defined(self, linkage, same):
        """The definition of a function. It uses one of the functions that do the same as those that it names."""
        names = [self.name, *(same.get(it, it) for it in self.names[1:])]
        text = "".join(f"{before}@{name}" for before, name in zip(self.between, names)) + self.between[-1]
        return f"define {linkage}" + text[len("define "):]


class Module:
    """The functions of a module by their names, and all else that is in it. Those of these new names are exported.

    The text comes in pieces. Lines that match `unneeded` are left out of functions, and functions whose header matches
    `unused` altogether.
    """

    def __init__(self, pieces, unneeded, unused, new_names):
        self.functions, others, text = {}, [], ""
        for piece in pieces:
            *texts, text = (text + piece).split(END)
            for it in texts:
                start = it.rindex("\ndefine ") + 1
                others.append(it[:start])
                if not unused.match(it, start):
                    function = Function(unneeded.sub("", it[start:] + END), new_names)
                    self.functions[function.name] = function
        self.others = COMMENT.sub("", "\n".join([*others, text]))
        self.same = {}

    def uses(self, name):
        """The functions that a function names, each as the one that does the same."""
        found = (self.same.get(it, it) for it in self.functions[name].names)
        return {it for it in found if it in self.functions}

    def size(self, name):
        return self.functions[name].size

    def unite(self, names, apart):
        """Makes one function of those that do the same, but for those that stay apart.

        Functions are held to do the same until what they name differs, and so do those that call each other.
        """
        constants = dict(CONSTANT.findall(self.others))
        number = {it: number for number, it in enumerate(dict.fromkeys(constants.values()))}
        kinds, called = {}, {}
        for name in names:
            it = self.functions[name]
            called[name] = [one for one in it.names if one in self.functions]
            fixed = [None if one in self.functions else number.get(constants.get(one), one) for one in it.names]
            kinds[name] = (name if name in apart or not it.is_internal else "", *it.between, *fixed)
        kinds, count = numbered(kinds)
        before = 0
        while count > before:
            before = count
            kinds, count = numbered({name: (kinds[name], *map(kinds.get, called[name])) for name in names})
        first = {}
        for name in sorted(names):
            if first.setdefault(kinds[name], name) != name:
                self.same[name] = first[kinds[name]]

    def part(self, own, large):
        """The text of the part with these large functions."""
        inside = reached(own, lambda name: [it for it in self.uses(name) if it in own or it not in large])
        outside = {it for name in inside for it in self.uses(name)} - inside
        return "\n".join([self.others, *(self.defined(it, it in large) for it in self.functions if it in inside),
                          *(self.functions[it].declared() for it in self.functions if it in outside)])

    def defined(self, name, is_large):
        """The definition of a function, which other parts see if it is large."""
        it = self.functions[name]
        return it.defined(("hidden " if is_large else "internal ") if it.is_internal else "", self.same)


def numbered(values):
    """The values with numbers for what they are, and how many differ."""
    numbers = {}
    return {name: numbers.setdefault(it, len(numbers)) for name, it in values.items()}, len(numbers)


def reached(names, uses):
    """The names, and all that these lead to."""
    found, left = set(), list(names)
    while left:
        name = left.pop()
        if name not in found:
            found.add(name)
            left += uses(name)
    return found


def divided(names, sizes, count):
    """The names in so many lists, in their order, each with about as much as the others."""
    lists, passed, whole = [[] for _ in range(count)], 0, sum(map(sizes, names)) + 1
    for name in names:
        lists[passed * count // whole].append(name)
        passed += sizes(name)
    return lists


def parts(module, count, alone=()):
    """The texts of the parts of a module, each made when it is asked for.

    With `alone` there is one part more for these functions, which call others by their own names. Before it is one for
    what only they need, and no export, if the module has exports.
    """
    visible = [name for name, it in module.functions.items() if not it.is_internal]
    apart = {it for name in alone for it in (name, *module.uses(name))}
    module.unite(reached(visible, module.uses), apart)
    used = reached(visible, module.uses)
    large = {it for it in used if module.size(it) > SMALL or not module.functions[it].is_internal}
    large = (large | {it for name in alone for it in module.uses(name)}) - {*alone}
    exported = reached([it for it in visible if it not in alone], module.uses) or large
    lists = divided(sorted(large & exported), module.size, count)
    lists += [own for own in (sorted(large - exported), [*alone]) if own]
    return [lambda own=own: module.part({*own}, large | {*alone}) for own in lists]
