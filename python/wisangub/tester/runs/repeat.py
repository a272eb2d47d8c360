"""A sequence that a report printed, run once more from the known state."""

import sys

from wisangub.snmp import wire
from wisangub.tester.findings.compare import fields
from wisangub.tester.findings.results import Verdict
from wisangub.tester.requests.messages import spelled
from wisangub.tester.requests.steps import Ask, Step, Wait, fixed
from wisangub.tester.session import Session
from wisangub.tester.sign.pair import Inconclusive
from wisangub.tester.sign.way import Stopped
from wisangub.tester.state.known_state import Unreachable

from .runner import Run


def steps_of(sequence: str, communities: tuple[bytes, bytes]) -> list[Step]:
    """The steps of octets and ticks with commas between them.

    A request in its shortest form takes a number of its own.
    """
    if not sequence:
        raise ValueError
    steps: list[Step] = []
    groups: dict[bytes, int] = {}
    for word in sequence.split(","):
        if word == "tick":
            steps.append(Wait(1))
            continue
        octets = b"" if word == "-" else bytes.fromhex(word)
        message = spelled(octets)
        if (
            message is not None
            and message.kind != wire.RESPONSE
            and message.community in communities
            and wire.written(message) == octets
        ):
            group = groups.setdefault(octets, len(groups) - 10**6)
            steps.append(Ask(message.kind, tuple(message.bindings), message.community == communities[1], group=group))
        else:
            steps.append(fixed(octets))
    return steps


def repeat(session: Session, sequence: str) -> int:
    """Prints both replies to the request that differs, and says by its status what the verdict is: 0 where none does,
    1 where one does, 3 where it cannot be judged, and 2 where the sequence is none or nothing answers."""
    try:
        steps = steps_of(sequence, session.pair.communities)
    except ValueError:
        print("a sequence is octets in hexadecimal digits, or tick, with commas between them", file=sys.stderr)
        return 2
    try:
        if session.reset.ask_height() is None:
            print(Verdict.UNREACHED.value)
            return Verdict.UNREACHED.status
        session.preflight.read_first()
        session.preflight.reach_first()
        run = session.runner.anew(steps)
        if (run is None or run.exchange.theirs is None) and session.reset.ask_height() is None:
            raise Stopped("the sign does not answer any more")
    except (Inconclusive, Stopped, Unreachable) as fault:
        print(f"{Verdict.NOT_JUDGED.value}: {fault}")
        return Verdict.NOT_JUDGED.status
    except KeyboardInterrupt:
        print(f"{Verdict.NOT_JUDGED.value}: it was interrupted")
        return Verdict.NOT_JUDGED.status
    finally:
        session.put_back()
    if run is not None:
        _show(run)
        return Verdict.DIFFERS.status
    print("nothing differs")
    return Verdict.CONFORMS.status


def _show(run: Run) -> None:
    """What was sent last, and both replies."""
    exchange = run.exchange
    assert exchange.mismatch is not None
    print(f"{exchange.mismatch.kind.value}, at datagram {sum(octets is not None for octets in run.sent)}")
    for title, octets in (("sent", exchange.octets), ("our sign", exchange.ours), ("this sign", exchange.theirs)):
        print(f"{title}: {octets.hex() if octets else '-'}")
        print("\n".join(f"  {line}" for line in fields(octets)))
