#!/usr/bin/env python3
"""Runs README's commands: `tools/readme_commands.py [--program PATH]` prints `N passed, N failed`.

Each block of `sh` that begins with `./signtool` or `cp` is run at a copy of signs/ and the built program, line by line
(a here-document is one line). The block of the SNMP tools is run whole, without its `apt-get` and over this program,
where they are installed, and else skipped, which is said; with --short it is left out. With --signtool, another
program that answers the lines of front ends, such as model/signtool, it is the one block that is run. A block without a
language right after it is what its last command, or the whole block, prints. The two commands that prove,
`tools/build.py` and the gate, are left to the gate. The contract that README shows has to stand in the sources as it
is shown, its wrong line in the edit, and the clause that is left open in the contract. With --rattle nothing of this is
run but the block of `rust` that a user would write, which `rt try` compiles and runs in a crate of a copy, in some
minutes; where no kit is here it is skipped.
"""

import argparse
import pathlib
import re
import shutil
import subprocess
import sys
import tempfile
from collections.abc import Iterator

TOP = pathlib.Path(__file__).resolve().parent.parent
SIGNTOOL = TOP / "crates/signtool/out/signtool"


def program(path: str) -> str:
    """The program at this place: the type of an option, so that it is said that there is none."""
    if not pathlib.Path(path).is_file():
        raise argparse.ArgumentTypeError(f"no program at {path}: tools/build.py builds it")
    return path


def commands(block: str) -> Iterator[str]:
    """The commands of a block, a here-document with its lines as one."""
    lines = iter(block.splitlines())
    for line in lines:
        command = [line]
        if "<<'EOF'" in line:
            for more in lines:
                command.append(more)
                if more == "EOF":
                    break
        if not line.startswith("#") and not line.startswith("cp "):
            yield "\n".join(command) + "\n"


def _with_snmp_tools(block: str, after: str, program: str, folder: str) -> bool:
    """Whether the block of the SNMP tools prints what README says, in a folder with links to what it names."""
    for name in ("bin", "mibs", "model", "python"):
        pathlib.Path(folder, name).symlink_to(TOP / name)
    whole = block.split("\n", 1)[1].replace("model/signtool", str(pathlib.Path(program).resolve()))
    ended = subprocess.run(["bash", "-c", whole], cwd=folder, capture_output=True, text=True, timeout=120, check=False)
    well = ended.stdout == after
    if not well:
        print(f"{block}exit {ended.returncode}\n{ended.stdout}{ended.stderr}")
    return well


def _runs(block: str, after: str, folder: str) -> Iterator[bool]:
    """For each command of a block whether it runs, the last with the output that README says."""
    made = list(commands(block))
    for at, command in enumerate(made):
        call = ["bash", "-c", command]
        ended = subprocess.run(call, cwd=folder, capture_output=True, text=True, timeout=60, check=False)
        wanted = after if after and at + 1 == len(made) else None
        well = ended.returncode == 0 and ended.stdout and not ended.stderr and wanted in (None, ended.stdout)
        if not well:
            print(f"{command}exit {ended.returncode}\n{ended.stdout}{ended.stderr}")
        yield bool(well)


_CONTRACT = re.compile(
    r"stands in (\S+)\. .*?```rust\n(.*?)```.*? as (\S+\.edit) does .*?"
    r"```\n *(.*?)\n\./(\S+?):(\d+):.*?`(returns-in-\w+-clause-(\w+))`",
    re.DOTALL,
)


def _is_in_sources(text: str) -> bool:
    """Whether the contract that README shows, and its wrong body, are those of the sources."""
    found = _CONTRACT.search(text)
    if not found:
        print("README shows no contract")
        return False
    source, contract, edit, line, proof, number, goal, clause = found.groups()
    lines = (TOP / source).read_text(encoding="utf-8").splitlines()
    edited = (TOP / edit).read_text(encoding="utf-8").splitlines()
    crate, _, named = source.partition("/src/")
    proofs = (TOP / crate / proof).read_text(encoding="utf-8").splitlines()
    well = (
        contract in "\n".join((*lines, ""))
        and f"new: {line}" in edited
        and f"file: src/{named}" in edited
        and f"{goal} c =" in "\n".join(proofs[: int(number) - 1])
        and f"ensures {clause} " in contract
    )
    if not well:
        print(f"README's contract or its wrong body differs from {source}, {edit}")
    return well


PROGRAM = """//! README's block.

{uses}
use std::process::ExitCode;

fn send(_reply: &[u8]) {{}}

fn light(_is_lit: bool) {{}}

fn main(rt: HostRuntime) -> ExitCode {{
    let octets = dms_sign_text::BENCH.as_bytes();
    let datagram: &[u8] = &{datagram};
{body}    ExitCode::from(if reply.is_empty() {{ 3 }} else {{ 0 }})
}}
"""


def _with_kit(text: str) -> bool:
    """Whether the block of `rust` compiles in a crate that stands on the crates that README says, and a datagram to the
    bench sign is replied to."""
    found = re.search(r"`NAME: ([a-z_ ]+)`.*?```rust\n(.*?)```", text, re.DOTALL)
    asked = re.search(r"signtool answer ([0-9a-f]+)", text)
    assert found and asked
    lines = found[2].splitlines(keepends=True)
    uses = "".join(line for line in lines if line.startswith("use ")).rstrip()
    body = "".join(f"    {line}" for line in lines if line.strip() and not line.startswith("use "))
    source = PROGRAM.format(uses=uses, body=body, datagram=list(bytes.fromhex(asked[1])))
    with tempfile.TemporaryDirectory() as folder:
        copy = pathlib.Path(folder)
        shutil.copytree(TOP / "crates", copy / "crates", ignore=shutil.ignore_patterns("out"))
        rows = (TOP / "crates.txt").read_text(encoding="utf-8")
        (copy / "crates.txt").write_text(f"{rows}readme: {found[1]}\n", encoding="utf-8")
        (copy / "crates/readme/src").mkdir(parents=True)
        (copy / "crates/readme/src/main.rt").write_text(source, encoding="utf-8")
        ended = subprocess.run(["rt", "try"], cwd=copy / "crates/readme", capture_output=True, text=True, check=False)
    if ended.returncode:
        print(f"{source}exit {ended.returncode}\n{ended.stdout}{ended.stderr}")
    return ended.returncode == 0


def main() -> int:
    parser = argparse.ArgumentParser(description=__doc__, formatter_class=argparse.RawDescriptionHelpFormatter)
    parser.add_argument(
        "--program",
        type=program,
        default=str(SIGNTOOL) if SIGNTOOL.is_file() else None,
        help="the program signtool, as tools/build.py makes it",
    )
    parser.add_argument(
        "--signtool", type=program, help="the program behind the front ends, for the block of the SNMP tools"
    )
    parser.add_argument("--short", action="store_true", help="without the block of the SNMP tools")
    parser.add_argument("--rattle", action="store_true", help="the block of Rattle alone")
    asked = parser.parse_args()
    text = (TOP / "README.md").read_text(encoding="utf-8")
    if asked.rattle:
        results = [_with_kit(text)] if shutil.which("rt") else []
        print(
            f"{sum(results)} passed, {len(results) - sum(results)} failed"
            if results
            else "skipped README's Rattle: no rt"
        )
        return 0 if all(results) else 1
    if not asked.program and not asked.signtool:
        parser.error(f"no program at {SIGNTOOL}: tools/build.py builds it")
    results = [_is_in_sources(text)]
    with tempfile.TemporaryDirectory() as folder:
        if not asked.signtool:
            shutil.copy(asked.program, f"{folder}/signtool")
        shutil.copytree(TOP / "signs", f"{folder}/signs")
        for block, after in re.findall(r"```sh\n(.*?)```\n(?:\n```\n(.*?)```)?", text, re.DOTALL):
            if block.startswith("apt-get") and not asked.short and not shutil.which("snmpget"):
                print("skipped the SNMP tools: snmpget is not here")
            elif block.startswith("apt-get") and not asked.short:
                results.append(_with_snmp_tools(block, after, asked.signtool or asked.program, folder))
            elif not asked.signtool and block.startswith(("./signtool", "cp ")):
                results += _runs(block, after, folder)
    print(f"{sum(results)} passed, {len(results) - sum(results)} failed")
    return 0 if all(results) else 1


if __name__ == "__main__":
    sys.exit(main())
