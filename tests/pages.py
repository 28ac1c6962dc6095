#!/usr/bin/env python3
"""pages.py: whether the pages are short, and lead where they say: their words, the length of their lines, and their links."""
import os
import re
import subprocess
import sys

TOP = os.path.realpath(os.path.join(os.path.dirname(os.path.realpath(__file__)), ".."))

# by `wc -w`
WORDS_OF_FRONT, WORDS_IN_ALL = 600, 50_500
LINE = 160

FENCE = re.compile(r"^\s*```")
TABLE = re.compile(r"^\s*\|")
LINK = re.compile(r"\]\(([^()\s]+)\)")
HEADING = re.compile(r"^#+ (.*)$", re.M)


def pages():
    """The paths of all pages, and their texts."""
    listed = subprocess.run(["git", "ls-files", "*.md"], cwd=TOP, stdout=subprocess.PIPE, text=True, check=True).stdout
    for path in listed.splitlines():
        if os.path.isfile(os.path.join(TOP, path)):
            yield path, read(path)


def read(path):
    with open(os.path.join(TOP, path), encoding="utf-8") as file:
        return file.read()


def prose(text):
    """The lines of a page that are neither code nor part of a table, with their numbers."""
    in_code = False
    for number, line in enumerate(text.split("\n"), 1):
        if FENCE.match(line):
            in_code = not in_code
        elif not in_code and not TABLE.match(line):
            yield number, line


def anchors(text):
    """The names by which the headings of a page can be linked to."""
    return {re.sub(r"[^\w\- ]", "", re.sub(r"\]\([^)]*\)", "", it).lower()).replace(" ", "-") for it in HEADING.findall(text)}


def is_lost(path, target):
    """Whether a link of a page leads nowhere."""
    if re.match(r"[a-z]+:", target):
        return False
    file, _, anchor = target.partition("#")
    place = os.path.normpath(os.path.join(os.path.dirname(path), file)) if file else path
    if not os.path.exists(os.path.join(TOP, place)):
        return True
    return bool(anchor) and place.endswith(".md") and anchor not in anchors(read(place))


def complaints():
    words = 0
    for path, text in pages():
        of_page = len(text.split())
        words += of_page
        if path == "README.md" and of_page > WORDS_OF_FRONT:
            yield f"{path} has {of_page} words, more than {WORDS_OF_FRONT}"
        yield from (f"{path}:{number} has {len(line)} characters" for number, line in prose(text) if len(line) > LINE)
        yield from (f"{path} links to {it}, which isn't there" for it in LINK.findall(text) if is_lost(path, it))
    if words > WORDS_IN_ALL:
        yield f"the pages have {words} words, more than {WORDS_IN_ALL}"


def run():
    """How many pages there are, if all are right, and how much is wrong."""
    wrong = list(complaints())
    for it in wrong:
        print(f"pages FAILED: {it}")
    return (0 if wrong else len(list(pages()))), len(wrong)


if __name__ == "__main__":
    sys.exit(1 if run()[1] else 0)
