"""The processor's time and the memory of processes with their children, from /proc."""

import contextlib
import os
import pathlib

TICKS = os.sysconf("SC_CLK_TCK")


def fields(pid: int) -> list[str]:
    """/proc/PID/stat from the state on; none where there is no such process."""
    with contextlib.suppress(OSError):
        return pathlib.Path(f"/proc/{pid}/stat").read_text().rpartition(")")[2].split()
    return []


def seconds(pid: int) -> float:
    """The processor's time that a process took, with that of its children that have ended."""
    held = fields(pid)
    return sum(map(int, held[11:15])) / TICKS if held else 0.0


def own_memory(pid: int) -> float:
    """Megabytes of a process, its share of pages that others have too."""
    with contextlib.suppress(OSError):
        for line in pathlib.Path(f"/proc/{pid}/smaps_rollup").read_text().splitlines():
            if line.startswith("Pss:"):
                return int(line.split()[1]) / 1024
    return 0.0


def children() -> dict[int, list[int]]:
    """All processes by their parents."""
    found: dict[int, list[int]] = {}
    for place in pathlib.Path("/proc").glob("[0-9]*"):
        held = fields(int(place.name))
        if held:
            found.setdefault(int(held[1]), []).append(int(place.name))
    return found


class Group:
    """What processes and their children take from now on, and the most memory that they have at a time."""

    def __init__(self, name: str, processes: list[int]) -> None:
        self.name, self.processes = name, processes
        self.begun = self.time(children())
        self.most_memory = 0.0
        self.most_children = 0

    def below(self, of: dict[int, list[int]]) -> list[int]:
        return [child for process in self.processes for child in of.get(process, [])]

    def time(self, of: dict[int, list[int]]) -> float:
        """The processor's time so far, of children that stand too."""
        return sum(map(seconds, [*self.processes, *self.below(of)]))

    def look(self, of: dict[int, list[int]]) -> None:
        """Takes the memory of this moment into account."""
        below = self.below(of)
        self.most_memory = max(self.most_memory, sum(map(own_memory, [*self.processes, *below])))
        self.most_children = max(self.most_children, len(below))

    def told(self, span: float, of: int = 0) -> str:
        """In words, and of each of so many things that were done."""
        took = self.time(children()) - self.begun
        each = f", {1000 * took / of:.1f} ms each" if of else ""
        return (
            f"{self.name}: {took:.1f} s of processor in {span:.1f} s ({100 * took / span:.1f} of 100{each}), at most"
            f" {self.most_memory:.0f} MB and {self.most_children} children at a time"
        )


def pinned(processes: list[int]) -> None:
    """They and their children have one processor together, and whom they begin from now on."""
    of = children()
    for process in [*processes, *(child for one in processes for child in of.get(one, []))]:
        os.sched_setaffinity(process, {0})
