"""What a check said of the functions of a crate."""

from __future__ import annotations

import collections
import re
from dataclasses import dataclass, field

# What is said of a proof file that names what an edit took away, or cites a proof that does.
UNREAD = re.compile(r"has no field|is not in scope|has no `|was not admitted|is no name")
# What is said where the prover met a limit of its own, or of the machine: it tells nothing of a contract.
LIMITS = re.compile(
    r"\bran out of (?:stack|memory|the (?:steps|memory))|outgrew the memory limit|stopped at the step limit"
    r"|: could not tell|no verdict|could not be (?:used|made)|is stale|copy .*died"
)
LAST = re.compile(r"(?m)^(?:holes|only)=")
OF_SOURCE = re.compile(r"(?:\./)?(?:src|specs)/\S+: error\S*: (`[^`]*`: )?(.*)")
OF_PROOF = re.compile(r"(?:\./)?proofs/(\S+)\.antt:[\d:]+ error: (.*)")
OF_A_FUNCTION = ("Answers", "Invariants", "Proof")  # the files of a function's proof; others hold lemmas
OF_FUNCTION = re.compile(r"fn (\S+): ([^;]*)(.*)")


@dataclass
class Said:
    """The open goals of each function, and what keeps the check from telling anything."""

    goals: dict[str, list[str]] = field(default_factory=lambda: collections.defaultdict(list))
    functions: set[str] = field(default_factory=set)
    # the functions whose proof files name what is gone: their open goals may only want an answer under another name
    unread: dict[str, str] = field(default_factory=dict)
    # lemmas that are refused for what they say, as one of a table's entries
    lemmas: list[str] = field(default_factory=list)
    bad: str = ""  # the first text that does not read
    unknown: str = ""  # why the check tells nothing: it was killed, or met a limit

    @property
    def is_odd(self) -> bool:
        """Whether more is open than goals."""
        return bool(self.bad or self.unknown or self.unread)

    def goals_of(self, paths: set[str]) -> list[str]:
        """The open goals of these functions, each after its function's name; none where the proof files do not read."""
        read = sorted((paths & self.functions) - set(self.unread))
        return [f"{path.rpartition('::')[2]}: {goal}" for path in read for goal in self.goals.get(path, [])]


def owner(path: str) -> str:
    """The function, or that of a closure: `module::fn::Type::function::closure` stands in `module::Type::function`."""
    module, is_closure, rest = re.sub(r"\+Fn\w*::\w+$", "", path).partition("::fn::")
    return f"{module}::{rest.rpartition('::')[0]}" if is_closure else path


def hear_function(said: Said, path: str, verdict: str, more: str) -> None:
    said.functions.add(owner(path))
    if verdict.startswith("could not tell"):
        said.unknown = said.unknown or f"{path}: {verdict}"
    left = re.search(r"did not prove ([^;]*)", more)
    said.goals[owner(path)] += re.findall(r"`([^`]+)`", left[1]) if left else []
    if verdict.startswith("no proof: expected") and not left and "it calls" not in more:
        said.unread.setdefault(owner(path), f"{verdict}{more}")


def hear_proof(said: Said, crate: str, file: str, error: str) -> None:
    folder, _, name = file.rpartition("/")
    path = owner("::".join([crate, *folder.split("/")])) if name in OF_A_FUNCTION else f"{crate}/proofs/{file}.antt"
    if UNREAD.search(error):
        said.unread.setdefault(path, f"a proof file names what it takes away: {error}")
    elif LIMITS.search(error):
        said.unread.setdefault(path, f"a limit was met: {error}")
    elif name in OF_A_FUNCTION:
        said.goals[path].append(error)
    else:
        said.lemmas.append(f"{file}: {error}")


def hear_line(said: Said, crate: str, line: str) -> None:
    if of_source := OF_SOURCE.match(line):
        if not of_source[1] or UNREAD.search(of_source[2]):
            said.bad = said.bad or line
    elif of_proof := OF_PROOF.match(line):
        hear_proof(said, crate, *of_proof.groups())
    elif of_function := OF_FUNCTION.match(line):
        hear_function(said, *of_function.groups())
    elif LIMITS.search(line):
        said.unknown = said.unknown or line


def heard(crate: str, status: int, text: str) -> Said:
    """What a check with `--allow-holes` said, which ended with this status."""
    said = Said()
    for line in text.splitlines():
        hear_line(said, crate, line)
    if status not in (0, 1):
        how = "was killed" if status < 0 else "failed"
        said.unknown = f"the check {how}, status {status}: {said.unknown}".rstrip(": ")
    elif not LAST.search(text) and not said.bad:
        errors = [line for line in text.splitlines() if "error" in line]
        said.bad = next(iter(errors), "the check did not come to its end")
    return said
