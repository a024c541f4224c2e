#!/usr/bin/env python3
"""Whether all links in the repository lead somewhere: python3 tests/links.py

In pages (*.md) it looks at each link, and in all text files at each mention of a page, as docs/STEPS.md: the file has to
be there, and the heading, if an anchor is named. It prints a line for each broken link, and last 'N passed, M failed'.
"""

import os
import re
import sys

LEFT_OUT = {".git", "out", "target"}
TEXTS = (".md", ".rt", ".antt", ".py", ".sh", ".h", ".c", ".rs", ".txt", ".in", ".toml", "Makefile")
LINK = re.compile(r"\]\(([^()\s]+)\)")
MENTION = re.compile(r"(?<![\w/.(-])((?:[\w-]+/)*[\w-]+\.md)(#[\w-]+)?")


def texts():
    """The paths of all text files."""
    for folder, folders, files in os.walk("."):
        folders[:] = sorted(set(folders) - LEFT_OUT)
        yield from (os.path.relpath(os.path.join(folder, file)) for file in sorted(files) if file.endswith(TEXTS))


def read(path):
    with open(path, encoding="utf-8") as file:
        return file.read()


def anchors(path):
    """The anchors of a page's headings, each as a link names it."""
    names, in_block = [], False
    for line in read(path).splitlines():
        in_block ^= line.startswith("```")
        heading = re.match(r"#+ (.*)", line)
        if heading and not in_block:
            names.append(re.sub(r"[^\w\- ]", "", heading[1].lower()).replace(" ", "-"))
    return {name + f"-{before}" * (before > 0) for name, before in
            ((name, names[:number].count(name)) for number, name in enumerate(names))}


def links(path):
    """What a file refers to: the words, the paths that these may mean, and the anchor, or an empty one."""
    folder, text = os.path.dirname(path), read(path)
    if path.endswith(".md"):
        for words in LINK.findall(text):
            target, _, anchor = words.partition("#")
            if ":" not in words:
                yield words, [os.path.join(folder, target) if target else path], anchor
        text = LINK.sub("", text)
    for page, anchor in MENTION.findall(text):
        yield page + anchor, [os.path.join(at, page) for at in (folder, "", "docs")], anchor[1:]


def fault(paths, anchor):
    """Why a link leads nowhere, or nothing."""
    there = [path for path in paths if os.path.exists(path)]
    if not there:
        return "there is no such file"
    if anchor and anchor not in anchors(there[0]):
        return "there is no such heading"
    return ""


def main():
    os.chdir(os.path.join(os.path.dirname(os.path.abspath(__file__)), ".."))
    passed, failed = 0, 0
    for path in texts():
        for words, paths, anchor in links(path):
            why = fault(paths, anchor)
            passed, failed = passed + (not why), failed + bool(why)
            if why:
                print(f"failed: {path}: {words}: {why}")
    print(f"{passed} passed, {failed} failed")
    sys.exit(failed > 0)


if __name__ == "__main__":
    main()
