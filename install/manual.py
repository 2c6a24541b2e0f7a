"""The man page and the completions of shells, made of what `wcc help` says."""
import os
import re
import subprocess
from pathlib import Path
from subprocess import DEVNULL, PIPE

WORD = re.compile(r"^  ([a-z-]+) ", re.M)
OPTION = re.compile(r"(?<![\w-])(--[a-z][a-z-]*|-[A-Za-z])(?![\w-])")
STATUSES = (
    ("0", "done"), ("1", "a file is none of its kind, and why"), ("2", "the words are wrong, or two of them name one file"),
    ("3", "a limit is passed"), ("4", "a file can't be read"), ("5", "something can't be written"), ("6", "memory ran out"),
    ("7", "the checker says no"), ("8", "a run trapped, is undefined, or breaks its annotations; a task is late"),
    ("10", "the bound is above the budget of --at-most"), ("70", "there is no program, no preprocessor or no Python to run"),
    ("130", "interrupted"))


def said(launcher: Path, *words: str) -> str:
    kept = {name: it for name, it in os.environ.items() if name != "WCC_PLAIN"}
    ran = subprocess.run([launcher, *words], stdin=DEVNULL, stdout=PIPE, stderr=DEVNULL, env={**kept, "COLUMNS": "78"})
    return ran.stdout.decode(errors="replace").rstrip("\n")


def helps(launcher: Path) -> dict[str, str]:
    """What `help` says of all, under no word, and of each word."""
    whole = said(launcher, "help")
    found = {it: said(launcher, "help", it) for it in WORD.findall(whole) if not it.startswith("-")}
    # Of a word that `help` knows no more of, it lists all.
    return {"": whole, **{word: text for word, text in found.items() if text != whole}}


def words_of(helps_: dict[str, str]) -> list[str]:
    return [*WORD.findall(helps_[""]), "help"]


def options_of(text: str) -> list[str]:
    """The options of a word: where it lists them, those that stand there."""
    listed = re.findall(r"^  (-.*?)(?:  |$)", text, re.M)
    return sorted(set(OPTION.findall("\n".join(listed) if text.startswith("usage:") else text)))


# The man page

def escaped(text: str) -> str:
    return re.sub(r"^(?=[.'])", r"\\&", text.replace("\\", "\\e").replace("-", "\\-"), flags=re.M)


def as_it_is(text: str) -> str:
    """Lines that stand as they are."""
    return f".nf\n{escaped(text)}\n.fi\n"


def page(helps_: dict[str, str]) -> str:
    parts = [".TH WCC 1 \"\" \"WCC\" \"User Commands\"\n.SH NAME\nwcc \\- a C compiler that proves how many cycles its images take at most\n",
             ".SH SYNOPSIS\n.B wcc\n.I COMMAND\n[WORDS ..]\n.SH DESCRIPTION\n", as_it_is(helps_[""])]
    for word, text in helps_.items():
        if word:
            parts.append(f".SH {word.upper()}\n{as_it_is(text)}")
    rows = "".join(f".TP\n.B {number}\n{escaped(what)}\n" for number, what in STATUSES)
    parts += [f".SH EXIT STATUS\n{rows}", ".SH ENVIRONMENT\n.TP\n.B WCC_PLAIN\nWhere it is 1, lines for programs alone are printed.\n",
              ".SH FILES\nThe pages, docs/COMMANDS.md and docs/GUIDE.md among them, and the examples stand in share/doc/wcc beside this one.\n"]
    return "".join(parts)


# Completions

def for_bash(helps_: dict[str, str]) -> str:
    options = "".join(f"        {word}) options='{' '.join(options_of(text))}' ;;\n" for word, text in helps_.items() if word)
    return f"""# Completions of wcc for bash.
_wcc() {{
    local at=${{COMP_WORDS[COMP_CWORD]}} options=
    if ((COMP_CWORD == 1)); then
        COMPREPLY=($(compgen -W '{' '.join(words_of(helps_))}' -- "$at"))
        return
    fi
    case ${{COMP_WORDS[1]}} in
        help) COMPREPLY=($(compgen -W '{' '.join(it for it in helps_ if it)}' -- "$at")); return ;;
{options}    esac
    if [[ $at == -* ]]; then
        COMPREPLY=($(compgen -W "$options" -- "$at"))
    else
        compopt -o filenames 2>/dev/null
        mapfile -t COMPREPLY < <(compgen -f -- "$at")
    fi
}}
complete -F _wcc wcc
"""


def for_zsh(helps_: dict[str, str]) -> str:
    options = "".join(f"    {word}) options=({' '.join(options_of(text))}) ;;\n" for word, text in helps_.items() if word)
    return f"""#compdef wcc
# Completions of wcc for zsh.
local -a options
if (( CURRENT == 2 )); then
    compadd -- {' '.join(words_of(helps_))}
    return
fi
case $words[2] in
    help) compadd -- {' '.join(it for it in helps_ if it)}; return ;;
{options}esac
if [[ $PREFIX == -* ]]; then
    compadd -- $options
else
    _files
fi
"""
