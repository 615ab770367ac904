#!/usr/bin/env python3
"""Brings the repository's own definitions and lemmas to snake case, as today's Rattle spells them.

    tools/snake_names.py [FOLDER]

Run once, after the toolchain's port.py, at the top of the repository or on FOLDER. A name that begins with a small letter and has capitals
further on (`floorOf`, `endsS12`) gets underscores in their place; types, modules and constructors keep theirs. Functions of src/, strings,
inputs and outputs have no such names. Where a lemma has the name that its function now gets, the lemma gets `_lem`."""
import os
import re
import sys

# Lemmas of proofs/ that would have a definition's new name.
LEMMAS = ["all_asked", "all_digits", "codes_all", "is_digit", "kept_if", "key_row", "one_bit", "pushed_of", "same_bits", "stage_at", "typed_byte"]
# A word is not a part of a longer one, nor what follows a quote.
BEFORE, AFTER = r"(?<![\w'₀-₉-])", r"(?![\w'₀-₉-])"
LEMMA = re.compile(BEFORE + "(%s)" % "|".join(LEMMAS) + AFTER)
CAMEL = re.compile(BEFORE + r"[a-z][\w₀-₉'-]*")


def snake(match):
    word = match.group()
    if not re.search("[a-z0-9][A-Z]", word):
        return word
    return "-".join(re.sub("(?<=[a-z0-9])(?=[A-Z])", "_", part).lower() if re.match("[a-z]", part) else part for part in word.split("-"))


def turned(name, text):
    if name.endswith(".antt"):
        text = LEMMA.sub(r"\1_lem", text)
    return CAMEL.sub(snake, text)


def main():
    top = sys.argv[1] if len(sys.argv) > 1 else "."
    for folder, folders, files in os.walk(os.path.join(top, "crates")):
        folders[:] = sorted(name for name in folders if name != "out")
        for name in sorted(files):
            if name.endswith((".rt", ".antt")):
                path = os.path.join(folder, name)
                with open(path, encoding="utf-8") as file:
                    text = file.read()
                new = turned(name, text)
                if new != text:
                    with open(path, "w", encoding="utf-8") as file:
                        file.write(new)


main()
