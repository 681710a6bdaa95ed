#!/usr/bin/env python3
"""Makes crates/README.md of the headings of crates.txt and the beginning of each crate's documentation, the `//!`
text at the head of its root file. With `--check` it only tells whether the page is so, and ends with 1 where not."""
import os
import re
import sys
import textwrap

TOP = os.path.dirname(os.path.dirname(os.path.realpath(__file__)))
PAGE = f"{TOP}/crates/README.md"
WHOLE = {"break_long_words": False, "break_on_hyphens": False}
HEAD = """# The crates

Lowest first, as in `crates.txt`, which says what each one uses. A crate's documentation, the head of its root file,
tells what it is for and why, what it promises and what may be changed. `specs/` has the definitions that contracts
cite, `proofs/` the lemmas. This page is made by `tools/crates_page.py`.
"""


def root_of(crate):
    """The path of a crate's root file, from `crates/`."""
    library = f"{crate}/src/lib.rt"
    return library if os.path.exists(f"{TOP}/crates/{library}") else f"{crate}/src/main.rt"


def summary(path):
    """The first sentence of a root file's documentation, up to its first colon, and where that is long to a comma."""
    with open(f"{TOP}/crates/{path}", encoding="utf-8") as source:
        lines = [line[3:].strip() for line in source if line.startswith("//!")]
    text = " ".join(lines).split("  ")[0]
    sentence = re.sub(r" \([^()]*\d{4}\)", "", re.match(r"(.*?)\.(?= |$)", text + " ")[1])
    front = re.split(r": | \(", sentence)[0]
    front = front if len(front.split()) >= 4 else sentence
    if sentence.startswith("The mode"):
        return sentence.removeprefix("The mode ").removeprefix("The modes ")
    shorter = [it for it in front.split(", ") if it]
    while len(", ".join(shorter).split()) > 10 and len(", ".join(shorter[:-1]).split()) >= 5:
        if shorter[-1].startswith("and "):
            break
        shorter.pop()
    return ", ".join(shorter)


def page():
    """The text of the page."""
    out = [HEAD]
    with open(f"{TOP}/crates.txt", encoding="utf-8") as source:
        blocks = source.read().split("\n\n")
    for block in blocks[1:]:
        heading, *lines = block.strip().split("\n")
        out.append(f"## {heading[2:].split(';')[0].rstrip('.')}\n")
        for line in lines:
            crate = line.split(":")[0].split()[0]
            path = root_of(crate)
            out.append(textwrap.fill(f"- [`{crate}`]({path}): {summary(path)}", 120, subsequent_indent="  ", **WHOLE))
        out.append("")
    return "\n".join(out)


def main():
    text = page()
    if "--check" not in sys.argv:
        with open(PAGE, "w", encoding="utf-8") as target:
            target.write(text)
        return 0
    with open(PAGE, encoding="utf-8") as source:
        is_same = source.read() == text
    if not is_same:
        print("crates/README.md is not what tools/crates_page.py makes", file=sys.stderr)
    return 0 if is_same else 1


if __name__ == "__main__":
    sys.exit(main())
