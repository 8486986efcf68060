"""Texts of pages that are printed elsewhere."""
import re

from crates import ROOT


def section(page, heading):
    """Returns what is below a heading of a page, up to the next one of its level, without links."""
    text = (ROOT / page).read_text(encoding="utf-8")
    found = re.search(rf"^## {re.escape(heading)}\n(.*?)(?=^## |\Z)", text, re.M | re.S)
    return re.sub(r"\[([^\]]*)\]\([^)]*\)", r"\1", found[1])
