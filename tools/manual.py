#!/usr/bin/env python3
"""Prints the manual page bee.1, or the completion for bash, made of the first and the last part of docs/FORMATS.md:
manual.py man|bash."""
import os
import re
import sys

TOP = os.path.dirname(os.path.dirname(os.path.realpath(__file__)))
# Modes whose first word is no file, and the files of the others by their usual endings.
NUMBERS = ("queens",)
EXAMPLES = (
    ("bee solve tasks.bee > tasks.answer", "seeks a solution, or a best one, and writes the answer"),
    ("bee check tasks.bee tasks.answer", "tells whether that is a valid answer"),
    ("bee compile tasks.bee > tasks.cnf", "writes clauses for another solver"),
    ("bee bound tasks.bee -- -3 > better.cnf", "a number that begins with a minus sign stands behind --"),
)


def page():
    """The parts of the page of formats by their headings."""
    with open(f"{TOP}/docs/FORMATS.md", encoding="utf-8") as source:
        parts = re.split(r"^## ", source.read(), flags=re.M)
    return {part.split("\n", 1)[0]: part.split("\n", 1)[1] for part in parts[1:]}


def rows(text, head):
    """The rows of the table whose head begins so, cell by cell."""
    table = text[text.index(head) :].split("\n\n")[0].split("\n")[2:]
    return [[cell.strip() for cell in re.split(r"(?<!\\)\|", row)[1:-1]] for row in table if row.startswith("|")]


def roff(text):
    """Words of a page in the letters of a manual page."""
    text = re.sub(r"\s+", " ", text.strip()).replace("\\", "\\e").replace("-", "\\-")
    text = re.sub(r"`([^`]*)`", r"\\fB\1\\fR", text)
    return "\\&" + text if text.startswith((".", "'")) else text


def manual():
    """The manual page."""
    parts = page()
    command, faults = parts["The command"], parts["Lines on standard error"]
    usage = re.search(r"^    (bee MODE .*)$", command, re.M)[1]
    out = ['.TH BEE 1 "" "bee" "User Commands"', ".SH NAME"]
    out += ["bee \\- answers models of finite\\-domain constraints, with certificates"]
    out += [".SH SYNOPSIS", f".B {roff(usage)}", ".SH DESCRIPTION"]
    for paragraph in re.split(r"\n\n", command.strip())[1:]:
        if paragraph.startswith("| MODE"):
            out += [".SH MODES"]
            for mode, given, written in rows(command, "| MODE"):
                out += [".TP", f"\\fB{mode.strip('`')}\\fR", f"reads {roff(given)}; writes {roff(written)}"]
            out += [".SH OPTIONS"]
        elif paragraph.startswith("- "):
            for item in re.split(r"\n- ", paragraph[2:]):
                option, what = item.split(": ", 1)
                out += [".TP", f"\\fB{roff(option.strip('`'))}\\fR", roff(what)]
            out += [".PP"]
        else:
            out += [roff(paragraph), ".PP"]
    out += [".SH EXIT STATUS"]
    for code, line in rows(faults, "| exit code"):
        out += [".TP", f"\\fB{code}\\fR", roff(line)]
    out += [".SH EXAMPLES"]
    for words, what in EXAMPLES:
        out += [".TP", f"\\fB{roff(words)}\\fR", roff(what)]
    out += [".SH SEE ALSO", "The pages LANGUAGE.md and FORMATS.md in the folder doc/bee beside this page's."]
    return "\n".join(out) + "\n"


def completion():
    """The completion for bash."""
    command = page()["The command"]
    modes = [mode.strip("`") for mode, _, _ in rows(command, "| MODE")]
    options = sorted(set(re.findall(r"`(--[a-z-]+)", command)))
    return f"""# Completion of bee for bash, made by tools/manual.py.
_bee() {{
    local word=${{COMP_WORDS[COMP_CWORD]}} last=${{COMP_WORDS[COMP_CWORD - 1]}} at mode=
    for ((at = 1; at < COMP_CWORD; at++)); do
        [[ ${{COMP_WORDS[at]}} == -* || ${{COMP_WORDS[at - 1]}} == --budget ]] && continue
        mode=${{COMP_WORDS[at]}}
        break
    done
    COMPREPLY=()
    [ "$last" = --budget ] && return
    if [[ $word == -* ]]; then
        COMPREPLY=($(compgen -W "{' '.join(options)}" -- "$word"))
    elif [ -z "$mode" ]; then
        COMPREPLY=($(compgen -W "{' '.join(modes)}" -- "$word"))
    elif [ "$mode" != {' ] && [ "$mode" != '.join(NUMBERS)} ]; then
        compopt -o filenames 2>/dev/null
        COMPREPLY=($(compgen -f -- "$word"))
    fi
}}
complete -F _bee bee
"""


if __name__ == "__main__":
    if sys.argv[1:] not in (["man"], ["bash"]):
        sys.exit("manual.py: usage: manual.py man|bash")
    print(manual() if sys.argv[1] == "man" else completion(), end="")
