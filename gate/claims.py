"""What README.md and docs/PROMISES.md say is proved, a claim each: of the first its first paragraph, and each paragraph and item
under `What is proved`; of the second each paragraph and item.
"""

import os
import re

from crates import TOP
from statements import stated

PAGE, WHOLE = "README.md", "docs/PROMISES.md"
SECTION = "## What is proved"
# A claim is named by its first words.
FIRST = 8


def paragraphs(page):
    """Each paragraph and item of a page: the line where it begins, its heading and its words."""
    with open(os.path.join(TOP, page), encoding="utf-8") as file:
        lines = [*file, "\n"]
    begins, heading = 1, None
    for number, line in enumerate(lines, 1):
        if line.startswith(("#", "- ")) or not line.strip():
            text = " ".join("".join(lines[begins - 1 : number - 1]).split())
            if text:
                yield begins, heading, text
            begins = number if line.startswith("- ") else number + 1
        if line.startswith("#"):
            heading = line.strip()


def claims():
    """Each claim as a statement."""
    for page in (PAGE, WHOLE):
        for at, (line, heading, text) in enumerate(paragraphs(page)):
            if heading == SECTION or at == 0 or page == WHOLE:
                words = re.findall(r"\w+", text)[:FIRST]
                yield stated(f"{os.path.basename(page)}: {' '.join(words)}", os.path.join(TOP, page), line, text, [])
