#!/usr/bin/env python3
"""Counts what docs/DESIGN-PASS.md speaks of, in crates/*/src of this tree or of a commit that is named.

Each line is a count by one pattern. Which of the places found are places of a point, the page says by name: a pattern knows no meaning.
"""
import re
import subprocess
import sys

ROOT = subprocess.run(["git", "rev-parse", "--show-toplevel"], capture_output=True, text=True, check=True).stdout.strip()


def sources(commit):
    """The lines of each source, by its path."""
    names = subprocess.run(["git", "ls-tree", "-r", "--name-only", commit, "crates"], cwd=ROOT, capture_output=True, text=True, check=True).stdout
    for name in names.split("\n"):
        if re.fullmatch(r"crates/\w+/src/.*\.rt", name):
            text = subprocess.run(["git", "show", f"{commit}:{name}"], cwd=ROOT, capture_output=True, text=True, check=True).stdout
            yield name, text.split("\n")


def body(lines, at, indent):
    """What stands in the block that opens at a line."""
    end = at + 1
    while end < len(lines) and not lines[end].startswith(" " * indent + "}"):
        end += 1
    return "\n".join(lines[at + 1 : end])


PATTERNS = {
    "1 enums": r"^\s*(pub )?enum ",
    "1 flags among fields and parameters": r"^\s+(pub )?\w+: bool,$",
    "1 constants that are numbers": r"^\s*(pub )?const [A-Z_0-9]+: (u8|usize|u32|u64)\b",
    "1 kinds by number, lines": r"\bkind2?: u8",
    "2 hand-made reports": r"^\s+(-> )?Report \{$|^\s+second(: 0)?,$",
    "4 derives": r"^\s*#\[derive",
    "4 impls of std's traits": r"^impl(<.*>)? (fmt::\w+|Display|From<\w+>|TryFrom<\w+>|Add|AddAssign|Default|PartialEq|Ord)\b",
    "5 lines with a lent store or area": r"\b(store|area)2?: &",
    "5 lines with a cursor handed over": r"\b(c|here): Cursor",
    "6 a table or text with a length beside it": r"(table: &(mut )?\[u32; SLOTS\], n: usize|\ba: usize, n: usize)",
    "7 a flag that says which step runs": r"\b(full|old|many|sorted|is_outline|is_store): bool",
    "return true or false": r"^\s*return (true|false);$",
}


def main():
    commit = sys.argv[1] if len(sys.argv) > 1 else "HEAD"
    found = dict.fromkeys(PATTERNS, 0)
    loops = dict.fromkeys(["3 loops", "3 of them with a counted index", "3 of them for", "3 of them while let"], 0)
    total = 0
    for _, lines in sources(commit):
        total += len(lines) - 1
        for name, pattern in PATTERNS.items():
            found[name] += sum(bool(re.search(pattern, line)) for line in lines)
        for at, line in enumerate(lines):
            loop = re.match(r"^(\s*)(let .* = )?(while|loop|for)\b", line)
            if loop:
                loops["3 loops"] += 1
                loops["3 of them for"] += loop[3] == "for"
                loops["3 of them while let"] += line.strip().startswith("while let")
                counted = re.search(r"\b\w+ [+-]= (\d+|[A-Z]+);", body(lines, at, len(loop[1])))
                loops["3 of them with a counted index"] += loop[3] != "for" and bool(counted)
    for name, count in {**found, **loops, "lines": total}.items():
        print(f"{count:6} {name}")


main()
