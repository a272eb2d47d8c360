"""The state of a central system as text: what came to be since it was made."""

from .centre import Centre, Job
from .saved import numbers


def work_line(job: Job, swapped: bool) -> str:
    """What a job is to activate, as an operator commands it."""
    code = job.code
    if job.publication is None:
        return f"activate {code.octets(swapped).hex()}"
    memory, number, text, owner, *attributes = job.publication
    words = f"publish {memory} {number} {text.hex() or '-'} {owner.hex() or '-'} {numbers(attributes)}"
    return f"{words} {code.minutes} {code.priority} {numbers(code.address, '.')}"


def job_lines(centre: Centre) -> list[str]:
    """Whether a job is on, and what it is."""
    job, waiting = centre.job, centre.waiting
    if job is None:
        return ["idle"]
    begun = ["due"] if job.due or waiting is None else ["awaits", f"sends {waiting.sends}", f"ticks {waiting.age}"]
    return [*begun, f"step {job.step}", f"polls {job.polls}", work_line(job, centre.swapped)]


def saved(centre: Centre) -> list[str]:
    """The lines of a central system's state."""
    return [
        "state 1 centre",
        f"next {centre.next}",
        f"last {centre.last or 'none'}",
        *job_lines(centre),
        *(f"ledger {number} {code.octets(centre.swapped).hex()} {how}" for number, code, how in centre.ledger),
        "end",
    ]
