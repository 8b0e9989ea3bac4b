#!/usr/bin/env python3
"""Checks that what the pages name is there.

    package/pages.py

Each name, file and path in backticks on a page has to be in the tree: a name as a word of a file that is no page, a file or a
path as the end or the beginning of one. package/words.txt has what servers and other tools name so, what is built, and names that a
page of figures keeps, a word a line; each has to be on a page, and not in the tree.

Exit status: 0, or 1 where something isn't there; each such is printed with its page.
"""
import fnmatch
import os
import re
import sys

NAME = re.compile(r"[A-Za-z_]\w*(::[A-Za-z_]\w*)*")
PATH = re.compile(r"[\w.*-]+(/[\w.*-]+)+/?|[\w-]+\.(antt|binlog|edit|md|py|rt|sh|txt)")


def files_below(folder):
    """The paths of the files of the tree, without what is built."""
    for here, folders, files in os.walk(folder):
        folders[:] = [name for name in folders if name not in (".git", "out", "bin", "dist", "target", "wip")]
        paths = (os.path.join(here, name) for name in files)
        yield from (os.path.relpath(path, folder) for path in paths if os.path.isfile(path))


def text_of(path):
    with open(path, encoding="utf-8", errors="replace") as file:
        return file.read()


def is_in_tree(token, words, parts):
    """Whether a name or a path is there; None of what is neither."""
    if NAME.fullmatch(token):
        return all(word in words or word in parts for word in token.split("::"))
    if PATH.fullmatch(token):
        path = token.rstrip("/")
        return path in parts or bool("*" in path and fnmatch.filter(parts, path))
    return None


def parts_of(path):
    """A file's name, also without its ending, and each part of its path."""
    yield os.path.splitext(os.path.basename(path))[0]
    words = path.split("/")
    for first in range(len(words)):
        for past in range(first + 1, len(words) + 1):
            yield "/".join(words[first:past])


def main():
    os.chdir(os.path.join(os.path.dirname(os.path.abspath(__file__)), ".."))
    files = list(files_below("."))
    pages = sorted(path for path in files if path.endswith(".md"))
    parts = {part for path in files for part in parts_of(path)}
    known = text_of("package/words.txt").split()
    sources = [path for path in files if path not in pages and path != "package/words.txt"]
    words = {word for path in sources for word in re.findall(r"\w+", text_of(path))}
    missing = set()
    status = 0
    for page in pages:
        text = re.sub(r"^```.*?^```", "", text_of(page), flags=re.MULTILINE | re.DOTALL)
        for token in re.findall(r"`([^`\n]+)`", text):
            if is_in_tree(token, words, parts) is not False:
                continue
            missing.add(token)
            if token not in known:
                print(f"{page}: `{token}` is not in the tree", file=sys.stderr)
                status = 1
    for word in known:
        if word not in missing:
            print(f"package/words.txt: {word} is in the tree, or on no page", file=sys.stderr)
            status = 1
    return status


if __name__ == "__main__":
    sys.exit(main())
