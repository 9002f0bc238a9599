"""Says which links of pages lead nowhere: to a file that isn't there, or to a heading that a page hasn't.

    links.py FOLDER    reads every page below a folder, but those of `out` folders
"""

import re
import sys
from pathlib import Path

LINK = re.compile(r"\[[^\]]*\]\(([^)\s]+)\)")
CODE = re.compile(r"`[^`]*`")
ANCHOR = re.compile(r'<a id="([^"]*)">')


def anchors(text):
    """What a page's headings, and its anchors, are called in links."""
    found = set(ANCHOR.findall(text))
    for line in text.splitlines():
        if line.startswith("#"):
            words = re.sub(r"[^\w\- ]", "", line.lstrip("#").strip().lower())
            found.add(words.replace(" ", "-"))
    return found


def dead_links(page):
    """The links of a page that lead nowhere."""
    text = page.read_text()
    for target in LINK.findall(CODE.sub("", text)):
        name, _, anchor = target.partition("#")
        if name.startswith(("http:", "https:", "mailto:")):
            continue
        there = page if not name else page.parent / name
        if not there.exists():
            yield target
        elif anchor and anchor not in anchors(there.read_text()):
            yield target


def main(folder):
    top = Path(folder)
    pages = [page for page in sorted(top.rglob("*.md")) if "out" not in page.parts]
    dead = [(page.relative_to(top), link) for page in pages for link in dead_links(page)]
    for page, link in dead:
        print(f"{page}: {link} leads nowhere")
    print(f"links of {len(pages)} pages: {len(dead)} dead")
    return 1 if dead else 0


if __name__ == "__main__":
    sys.exit(main(*sys.argv[1:]))
