"""How many words of the documents a person keeps: all but those that a tool writes from elsewhere."""

import re

from claims import product_crates, words_by_hand
from tables import words_of_crates, words_written

# Written whole by `peers/run`, from sentences that stand in these files.
WRITTEN = {"docs/SCORES.md": ("peers/remarks.txt", "peers/sweeps.txt")}
QUOTE = re.compile(r"(?ms)^\[[^\]]*\]\([^)]+\):?\n+```antt\n.*?^```$|^```antt\n.*?^```$|^Paths: .*?$")


def kept_words(root):
    """The words that a person keeps, by the page or the file in which they stand."""
    counts = {}
    for page in sorted(root.glob("docs/**/*.md")):
        name, text = str(page.relative_to(root)), page.read_text()
        if name in WRITTEN:
            counts.update({file: len((root / file).read_text().split()) for file in WRITTEN[name]})
        elif name == "docs/proof/CLAIMS.md":
            counts[name] = words_by_hand(text, product_crates(root))
        elif name == "docs/proof/REVIEW.md":
            counts[name] = len(QUOTE.sub("", text).split())
        else:
            counts[name] = len(text.split()) - words_written(text)
            counts[name] -= words_of_crates(text) if name == "docs/CRATES.md" else 0
    return counts
