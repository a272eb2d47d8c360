#!/usr/bin/env python3
"""Writes shell completions for bash from what commands print for --help: `completions.py FOLDER NAME PROGRAM [WORD ..]`

FOLDER/NAME completes the command NAME. PROGRAM with the words of each part and --help says which options there are; the
words after PROGRAM are the parts, else the parts are the subcommands that its help lists.
"""

import argparse
import pathlib
import re
import subprocess
import sys

_FILES = {"FILE", "FOLDER", "PATH", "DESCRIPTION"}
_TEMPLATE = """# bash completion of {name}, made from its --help
_{function}() {{
    local word=${{COMP_WORDS[COMP_CWORD]}} before=${{COMP_WORDS[COMP_CWORD - 1]}} part=${{COMP_WORDS[1]}}
    case $before in
        {files}) COMPREPLY=($(compgen -f -- "$word")); return ;;
    esac
    local words
    case $part in
{cases}
    esac
    COMPREPLY=($(compgen -W "$words" -- "$word"))
}}
complete -o filenames -F _{function} {name}
"""


def help_of(words: list[str]) -> str:
    """What the command prints for --help, on whichever output."""
    ended = subprocess.run([*words, "--help"], capture_output=True, text=True, timeout=300, check=False)
    return ended.stdout + ended.stderr


def subcommands(text: str) -> list[str]:
    """The subcommands that a help lists under `Commands:`."""
    listed = re.search(r"(?m)^Commands:\n((?:[ ]{2,}.*\n)+)", text)
    return [word for word in re.findall(r"(?m)^ {2}([a-z]+)", listed[1]) if word != "help"] if listed else []


def options(text: str) -> list[str]:
    """The long options of a help: those listed under `Options:` where it has such a list."""
    listed = re.search(r"(?m)^Options:\n((?:[ ]{2,}.*\n)+)", text)
    text = listed[1] if listed else text
    return sorted(set(re.findall(r"(?<![\w-])--[a-z][a-z-]*", text)))


def file_options(text: str) -> set[str]:
    """The options that a file's name follows."""
    return {option for option, value in re.findall(r"(--[a-z][a-z-]*)[ =]<?([A-Z_]+)>?", text) if value in _FILES}


def completion(name: str, program: list[str], parts: list[str]) -> str:
    """The functions of bash for one command."""
    whole = help_of(program)
    parts = parts or subcommands(whole)
    texts = {part: help_of([*program, part]) for part in parts}
    cases = [f'        {part}) words="{" ".join(options(text))}" ;;' for part, text in texts.items()]
    cases.append(f'        *) words="{" ".join([*parts, *options(whole)])}" ;;')
    files = sorted(set().union(*(file_options(text) for text in [whole, *texts.values()]))) or ["--no-files"]
    return _TEMPLATE.format(name=name, function=name.replace("-", "_"), files=" | ".join(files), cases="\n".join(cases))


def main() -> int:
    parser = argparse.ArgumentParser(description=__doc__, formatter_class=argparse.RawDescriptionHelpFormatter)
    parser.add_argument("folder", type=pathlib.Path, metavar="FOLDER", help="where the file is written")
    parser.add_argument("name", metavar="NAME", help="of the command that is completed")
    parser.add_argument("program", metavar="PROGRAM", help="the command, for its --help")
    parser.add_argument("parts", nargs="*", metavar="WORD", help="its subcommands")
    asked = parser.parse_args()
    asked.folder.mkdir(parents=True, exist_ok=True)
    text = completion(asked.name, [asked.program], asked.parts)
    (asked.folder / asked.name).write_text(text, encoding="utf-8")
    return 0


if __name__ == "__main__":
    sys.exit(main())
