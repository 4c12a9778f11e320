#!/usr/bin/env python3
"""Lists the functions of a commit whose bodies are the same but for the names of types, numbers and crates.

usage: python3 tools/twins.py [COMMIT]      at the top of the repository

A line a group: how many, and where. The last line counts groups and functions. Bodies of one short word are passed over.
"""
import collections
import re
import subprocess
import sys

HEAD = re.compile(r"( *)(?:pub(?:\(crate\))? )?fn ([a-z_0-9]+)")
SOURCE = re.compile(r"crates/[^/]+/src/.*\.rt$")
ALIKE = [
    (re.compile(r"\byard_script\b"), "script"),
    (re.compile(r"\b(?:[ui](?:8|16|32|64)|usize|[A-Z][A-Za-z0-9]*)\b"), "T"),
    (re.compile(r"\b[0-9][0-9_a-fxA-F]*\b"), "n"),
]


def git(*words):
    return subprocess.check_output(("git",) + words, text=True)


def functions(text):
    """The name of each function, and its body with what may differ taken out."""
    lines = text.split("\n")
    for at, line in enumerate(lines):
        head = HEAD.match(line)
        if not head:
            continue
        # The line that opens the body, or ends a function that has none.
        opens = next(i for i in range(at, len(lines)) if re.search(r"(^ *|\) |> |\] |[a-z0-9] )\{$|;$", lines[i]))
        if lines[opens].endswith(";"):
            continue
        end = lines.index(head.group(1) + "}", opens)
        body = "\n".join(part.strip() for part in lines[opens + 1 : end])
        for pattern, word in ALIKE:
            body = pattern.sub(word, body)
        if len(body) > 20:
            yield head.group(2), body


def main():
    commit = sys.argv[1] if len(sys.argv) > 1 else "HEAD"
    places = collections.defaultdict(list)
    for path in filter(SOURCE.match, git("ls-tree", "-r", "--name-only", commit).split()):
        for name, body in functions(git("show", f"{commit}:{path}")):
            places[body].append(path.removeprefix("crates/") + ":" + name)
    groups = sorted(group for group in places.values() if len(group) > 1)
    for group in groups:
        print(len(group), *group)
    print(len(groups), "groups,", sum(map(len, groups)), "functions")


main()
