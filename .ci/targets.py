"""The targets that rustc knows, with their facts, as the tables of crates/known_targets have them."""
import re

from crates import ROOT

TABLES = ROOT / "crates" / "known_targets" / "table"


def newest_table():
    """Returns the table of the newest rustc."""
    return max(TABLES.glob("rustc-*.txt"), key=lambda file: [int(n) for n in re.findall(r"\d+", file.name)])


def table_of(text):
    """Returns the lines of facts of each target of a table, by its name."""
    return {name: lines for name, *lines in (block.split("\n") for block in text.strip("\n").split("\n\n"))}


def known_targets():
    """Returns the lines of facts of each target of the newest rustc."""
    return table_of(newest_table().read_text())
