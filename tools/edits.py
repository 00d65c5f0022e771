#!/usr/bin/env python3
"""Says of each wrong program whether it still fits the sources, in a line each, and proves nothing.

usage: python3 tools/edits.py [CRATE..]      all, or those of these crates: crates/CRATE/must-fail and wrong-programs/CRATE

An edit fits if its file is there and each `old:` text stands in it exactly once, after the earlier pairs are applied.
The exit status is 1 if one does not.
"""

import glob
import os
import sys


def why_not(edit, folder):
    """None, or what does not fit: the rules of `rt help`."""
    path, old, pairs, texts = None, None, 0, {}
    with open(edit, encoding="utf-8") as lines:
        text = lines.read()
    for line in text.split("\n"):
        if line.startswith("file: "):
            path = line[len("file: ") :].strip()
        elif line.startswith("old: "):
            old = line[len("old: ") :]
        elif line.startswith("new:"):
            if not path or not old:
                return "a new: before any file: or old:"
            if path not in texts:
                try:
                    with open(f"{folder}/{path}", encoding="utf-8") as file:
                        texts[path] = file.read()
                except OSError:
                    return f"there is no file {path}"
            found = texts[path].count(old)
            if found != 1:
                return f"{path} has {found} times: {old}"
            texts[path] = texts[path].replace(old, line[len("new:") :].removeprefix(" "))
            old, pairs = None, pairs + 1
    if old:
        return f"no new: after {old}"
    return None if pairs else "no pair of old: and new:"


def main():
    os.chdir(os.path.join(os.path.dirname(os.path.abspath(__file__)), ".."))
    wanted, bad, count = sys.argv[1:], 0, 0
    for edit in sorted(glob.glob("crates/*/must-fail/*.edit") + glob.glob("wrong-programs/*/*.edit")):
        crate = edit.split("/")[1]
        if wanted and crate not in wanted:
            continue
        count += 1
        why = why_not(edit, f"crates/{crate}")
        print(f"{edit}: {why or 'fits'}")
        bad += why is not None
    print(f"{count - bad} fit, {bad} do not")
    return bad > 0


sys.exit(main())
