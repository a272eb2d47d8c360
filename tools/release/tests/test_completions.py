"""What completions are made of."""

import importlib.util
import pathlib
import subprocess

FILE = pathlib.Path(__file__).resolve().parents[1] / "completions.py"
SPEC = importlib.util.spec_from_file_location("completions", FILE)
assert SPEC is not None and SPEC.loader is not None
completions = importlib.util.module_from_spec(SPEC)
SPEC.loader.exec_module(completions)

HELP = """A program

Commands:
  first   Does this
  second  Does that
  help    Print this message

Options:
      --sign <FILE>  a description
      --page <K>     a page
  -h, --help         Print help
"""


def test_parts_and_options_of_a_help() -> None:
    assert completions.subcommands(HELP) == ["first", "second"]
    assert completions.options(HELP) == ["--help", "--page", "--sign"]
    assert completions.file_options(HELP) == {"--sign"}


def test_options_of_a_usage_line() -> None:
    assert completions.file_options("usage: x [--log FILE] [--no-ticks] --to HOST:PORT") == {"--log"}
    assert completions.options("a well--known word, --no-ticks") == ["--no-ticks"]


def completed(tmp_path: pathlib.Path, *words: str) -> list[str]:
    """What bash offers after these words of a command that prints HELP."""
    program = tmp_path / "program"
    program.write_text(f"#!/bin/sh\ncat <<'EOF'\n{HELP}EOF\n", encoding="utf-8")
    program.chmod(0o755)
    (tmp_path / "made").write_text(completions.completion("some-name", [str(program)], []), encoding="utf-8")
    listed = " ".join(f"'{word}'" for word in words)
    script = f'. made; COMP_WORDS=(some-name {listed}); COMP_CWORD={len(words)}; _some_name; echo "${{COMPREPLY[@]}}"'
    ended = subprocess.run(["bash", "-c", script], cwd=tmp_path, capture_output=True, text=True, check=True)
    return ended.stdout.split()


def test_bash_completes(tmp_path: pathlib.Path) -> None:
    assert completed(tmp_path, "f") == ["first"]
    assert completed(tmp_path, "first", "--p") == ["--page"]
    assert completed(tmp_path, "first", "--sign", "pro") == ["program"]
