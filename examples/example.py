"""Prints the canonical form of a key, on how many known targets it is true, and whether it implies cfg(unix)."""
import sys

from nevgrasi import Fault, Key, known_targets

text = sys.argv[1] if len(sys.argv) > 1 else 'cfg( all(unix,not(target_os = "macos"),) )'
try:
    key = Key(text)
except Fault as fault:
    print(fault.snippet)
    sys.exit(2)
print(key.canonical)
print(f"true on {len(key.targets())} of {len(known_targets())} known targets")
print(f"implies cfg(unix): {'yes' if key.implies('cfg(unix)') else 'no'}")
