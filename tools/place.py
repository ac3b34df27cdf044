#!/usr/bin/env python3
"""Says where in a script the place is that qc refuses, and why in words: python3 tools/place.py < SCRIPT.

With --line it says first, on standard output, what qc writes of it. Of a script it says nothing."""
import os
import sys

sys.dont_write_bytecode = True
sys.path.insert(0, os.path.dirname(os.path.abspath(__file__)))
from script_text import MOST_BYTES, Refused, place_of, read_script


def main():
    text = sys.stdin.buffer.read(MOST_BYTES + 1)
    try:
        read_script(text)
    except Refused as refused:
        if "--line" in sys.argv[1:]:
            print(f"qc: script: {refused.line}")
        print(f"qc: {place_of(text, refused)}", file=sys.stderr)


if __name__ == "__main__":
    main()
