"""Which characters the program prints unchanged, as crates/cargo_platform/specs/Snippets.antt says."""
import unicodedata

# Some of the others: they end or turn a line, or have no width.
FORGING = (
    "\r\n\t\x00\x1b\x7f\x85\u061c\u200b\u200e\u200f\u202a\u202b\u202d\u202e\u2028\u2029\u2066\u2067\u2069\ufeff"
    "\U000e0001")


def is_shown(text):
    """Returns whether each character of lines is the space, a letter, a number, a punctuation mark or a symbol."""
    return all(it in " \n" or unicodedata.category(it)[0] in "LNPS" for it in {*text})
