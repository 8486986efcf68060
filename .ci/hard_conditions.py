"""Conditions that are hard to compare, as the trees of conditions.py, and deep keys."""
import itertools
import random

# Keys that have one value for a target, of those in these conditions.
ONE_VALUED = ["target_os", "target_env", "target_arch", "target_vendor"]


def parity(names, odd=True):
    """Returns the condition that an odd or an even number of the names is true, each half apart."""
    if len(names) == 1:
        return names[0] if odd else ("not", names[0])
    a, b = names[:len(names) // 2], names[len(names) // 2:]
    return ("any", ("all", parity(a), parity(b, not odd)), ("all", parity(a, False), parity(b, odd)))


def pigeonholes(pigeons, holes):
    """Returns the condition that each pigeon sits in a hole, and no two in the same."""
    sits = [[f"p{i}h{j}" for j in range(holes)] for i in range(pigeons)]
    apart = [("not", ("all", a[j], b[j])) for a, b in itertools.combinations(sits, 2) for j in range(holes)]
    return ("all", *(("any", *row) for row in sits), *apart)


def literal(chance, names):
    name = chance.choice(names)
    return name if chance.random() < 0.5 else ("not", name)


def nest(chance, names, depth):
    if depth == 0:
        return literal(chance, names)
    members = [nest(chance, names, depth - 1) for _ in range(chance.randint(2, 4))]
    return (chance.choice(["all", "any"]), *members)


def clauses(chance, names, count):
    return ("all", *(("any", *(literal(chance, names) for _ in range(3))) for _ in range(count)))


def nested(levels, inside="unix"):
    """Returns the text of a key with so many negations around a condition."""
    return f"cfg({'not(' * levels}{inside}{')' * levels})"


def hard_pair(chance, kind):
    count = chance.randint(21, 24)
    names = [f"n{i}" for i in range(count)]
    if kind == "parities":
        return parity(names), parity(chance.sample(names, count))
    if kind == "pigeonholes":
        pigeons = chance.choice([5, 6])
        return pigeonholes(pigeons, 4), ("all", nest(chance, names[:3], 2), pigeonholes(pigeons, 4))
    if kind == "nests":
        return nest(chance, names, 5), nest(chance, names, 5)
    if kind == "one value":
        values = [f'{ONE_VALUED[i % 4]} = "v{i // 4}"' for i in range(count)]
        return clauses(chance, values, 4 * count), parity(values)
    return clauses(chance, names, 4 * count), nest(chance, names, 4)


def hard_pairs(count, seed):
    chance = random.Random(seed)
    kinds = itertools.cycle(["parities", "pigeonholes", "nests", "one value", "clauses"])
    return [hard_pair(chance, kind) for kind in itertools.islice(kinds, count)]
