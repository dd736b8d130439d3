"""Lists the lemmas of crates/*/proofs that no other text of the crates names: usage: tools/uncited.py [TOP]. By text alone; one that
a page of docs/ names as a theorem is listed too, and a reader judges."""

import collections
import glob
import os
import re
import sys

WORD = r"[A-Za-z_][A-Za-z0-9_'\-]*"
HEAD = re.compile(r"^\s{0,2}(?:abbrev |unfoldable )*(?:pub )?(?:record |data )?(" + WORD + r")(?: [({].*)? :")
OF_A_FUNCTION = ("Invariants.antt", "Answers.antt", "Proof.antt", "Lib.antt")


def read(path):
    """The text without comments."""
    with open(path) as f:
        lines = [re.sub(r"\s--\s.*", "", line) for line in f.read().split("\n")]
    return [line for line in lines if not line.strip().startswith("--")]


def definitions(lines):
    """Each definition with its own lines."""
    found, name = {}, None
    for line in lines:
        head = HEAD.match(line)
        if head:
            name = head.group(1)
            found.setdefault(name, [])
        if name:
            found[name].append(line)
    return found


def main():
    top = sys.argv[1] if len(sys.argv) > 1 else "."
    # What a check leaves in out/ is no text of a crate.
    paths = [p for kind in ("*/specs", "*/proofs", "*/src") for p in glob.glob(f"{top}/crates/{kind}/**/*.*t", recursive=True)]
    texts = {p: read(p) for p in paths if p.endswith((".antt", ".rt"))}
    uses = collections.Counter()
    for lines in texts.values():
        body = "\n".join(line for line in lines if not re.match(r"\s*(ghost )?use ", line))
        uses.update(re.findall(WORD, body))
    for path in sorted(texts):
        if "/proofs/" not in path or path.endswith(OF_A_FUNCTION):
            continue
        for name, lines in definitions(texts[path]).items():
            own = len(re.findall(r"(?<![\w'\-])" + re.escape(name) + r"(?![\w'\-])", "\n".join(lines)))
            if uses[name] <= own:
                print(os.path.relpath(path, top), name)


main()
