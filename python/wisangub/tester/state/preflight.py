"""What comes before the chapters: is it the sign that is described, and can it be brought to the known state?"""

from dataclasses import dataclass

from wisangub.snmp import wire
from wisangub.snmp.names import RowStatus, scalar
from wisangub.tester.context import Context
from wisangub.tester.findings import classify
from wisangub.tester.findings.compare import Kind, Mismatch, mismatch, value_words
from wisangub.tester.findings.differences import Difference
from wisangub.tester.findings.results import Results, Watcher
from wisangub.tester.findings.rules import RULES, Rule
from wisangub.tester.requests.messages import spelled
from wisangub.tester.requests.objects import Column, Name, Value, integer, octets, row_of, spoken
from wisangub.tester.requests.steps import Ask, Wait, get, get_next, looks
from wisangub.tester.sign.besides import Besides
from wisangub.tester.sign.pair import Exchange, Pair
from wisangub.tester.sign.way import Stopped

from .known_state import Unreached
from .reset import Reset

_CAUSE = scalar("dmsActivateMsgError")
# what differs where a description is of another sign
_OTHER_SIGN = (
    "vmsSignHeightPixels.0",
    "vmsSignWidthPixels.0",
    "dmsMaxChangeableMsg.0",
    "dmsMaxVolatileMsg.0",
)
_GAPS, _MOST_BESIDES = 20, 2000  # gaps that one GetNext asks for; instances that are listed
READ_AGAIN = "and the replies shown are those when it was read again"
_READS = (Kind.STATUS, Kind.BINDINGS, Kind.VALUE)


@dataclass
class Preflight:
    """The reads before the chapters, and the first way to the known state."""

    pair: Pair
    reset: Reset
    context: Context
    results: Results
    watcher: Watcher

    def begin(self, is_anyway: bool = True) -> bool:
        """Whether anything answers; then both are in the known state, but for what was told. Raises Stopped where the
        sign has another size or other rows than the description, unless it is to be tested anyway."""
        if not _is_heard(self.reset):
            self.results.is_silent = True
            return False
        self.pair.masked.update(name for name in self.context.all_instances if self.context.claims.is_missing(name))
        self.read_first()
        self.configure()
        others = [name for name, _, _ in self.results.configuration if name in _OTHER_SIGN]
        if others and not is_anyway:
            raise Stopped(f"{', '.join(others)} differ, so the description is of another sign; --anyway goes on")
        self.reach_first()
        self.find_besides()
        if self.pair.port.is_lossy():
            self.reset.let_late_come()
            self.reset.reach_or_end()
        self.compare_all()
        return True

    def read_first(self) -> None:
        """The sign's own defaults, codes and times, to be put back at the end. What an earlier test read first, and
        could not put back, stands."""
        settings = self.reset.objects.settings()
        have = self.read_surely([name for name in settings if name not in self.pair.masked])
        self.results.first = {name: value for name, value in have.items() if value is not None} | self.results.first
        for name, value in self.results.first.items():
            if value != settings.get(name, value):
                said = (spoken(name), value_words(settings[name], name), value_words(value, name))
                self.results.set_back.append(said)

    def read_surely(self, names: list[Name]) -> dict[Name, Value | None]:
        """What the sign reads, twice: where both differ that is told, and of three reads what was read most stands, or
        last."""
        have, again = self.reset.read(names), self.reset.read(names)
        for name in [name for name in names if have[name] != again[name]]:
            first, then = ("nothing" if read is None else value_words(read, name) for read in (have[name], again[name]))
            reads = [one for one in (self.reset.read([name])[name], again[name], have[name]) if one is not None]
            have[name] = max(reads, key=reads.count) if reads else None
            exchange = self.on_both(get(name))
            exchange.ours, exchange.mismatch = exchange.theirs, Mismatch(Kind.VALUE, (name,))
            self._wrong_once(exchange, f"it read {first} first and {then} then, {READ_AGAIN}")
        return have

    def configure(self) -> None:
        """What is described otherwise is told and left out; rows that are in use are listed."""
        for name, wanted, have in _differing(self.reset, _described(self.context)):
            read = "nothing" if have is None else value_words(have, name)
            exchange = self.on_both(get(name))
            if self.reset.read([name])[name] == wanted:
                exchange.mismatch = Mismatch(Kind.VALUE, (name,))
                self._wrong_once(exchange, f"it read {read} first, {READ_AGAIN}")
                continue
            self.results.configuration.append((spoken(name), value_words(wanted, name), read))
            self.add(self.configuration_difference(name))
            self.pair.masked.add(name)
        for name, _, have in _differing(self.reset, _unused(self.context)):
            self.results.emptied.append((spoken(name), "nothing" if have is None else value_words(have, name)))

    def configuration_difference(self, name: Name) -> Difference:
        exchange = self.on_both(get(name))
        rule = RULES["permanent rows" if row_of(name) else "configuration"]
        exchange.mismatch = exchange.mismatch or Mismatch(Kind.VALUE, (name,))
        return Difference.of(rule, "before", exchange, [exchange.step], [exchange.octets])

    def add(self, difference: Difference) -> None:
        """A difference before the chapters is told."""
        self.results.before.append(difference)
        self.watcher.found(difference)

    def reach_first(self) -> None:
        """The known state for the first time; what cannot be brought there is told, and left out from here on."""
        self.pair.touched.update(self.context.rows)
        self.reset.is_entered, self.results.is_set_back = True, False
        for _ in range(3):
            unreached = self.reset.reach(observe=True)
            if unreached:
                self.tell_unreached(unreached)
            elif not self.pair.port.is_lossy() or not self.reset.is_unlearnt():
                break
        self.results.is_learnt = self.pair.ticks.is_learnt()

    def find_besides(self) -> None:
        """What the sign says that it has in the gaps between the profile's objects: no difference from here on."""
        names = self.context.instances
        besides = self.pair.besides = Besides(names)
        gaps = [(before, after) for before, after in zip([(0, 0), *names], [*names, None]) if _is_gap(before, after)]
        for at in range(0, len(gaps), _GAPS):
            asked = get_next(*[before for before, _ in gaps[at : at + _GAPS]])
            reply = spelled(self.reset.ask(asked) or b"")
            if reply is None:
                return
            if reply.status == wire.NO_ERROR and [name for name, _ in reply.bindings] == [
                after for _, after in gaps[at : at + _GAPS]
            ]:
                continue
            for before, after in gaps[at : at + _GAPS]:
                self._walk(before, after, besides)
        self.results.besides = [spoken(name) for name in besides.names]

    def _walk(self, before: Name, after: Name | None, besides: Besides) -> None:
        """The instances of one gap, each of which has to answer a Get too."""
        while len(besides.names) < _MOST_BESIDES:
            found = spelled(self.reset.ask(get_next(before)) or b"")
            if found is None or found.status or len(found.bindings) != 1:
                return
            name = found.bindings[0][0]
            if name <= before or after is not None and name >= after or self.reset.read([name])[name] is None:
                return
            besides.add(name)
            before = name

    def compare_all(self) -> None:
        """Every instance of both, one after the other: of those that read otherwise the first of each rule is told."""
        names = [name for name in self.context.instances if name not in self.pair.masked]
        told: set[str] = set()
        for look in looks(names):
            self.pair.pass_ticks()
            whole = self.on_both(look)
            if whole.mismatch is None or whole.mismatch.kind not in _READS:
                continue
            found = [exchange for name, _ in look.bindings if (exchange := self._comes_again(get(name))) is not None]
            if not found:
                self._wrong_once(whole)
            for exchange in found:
                assert exchange.mismatch is not None
                rule = classify.rule_of(exchange.octets, exchange.ours, exchange.theirs, exchange.mismatch)
                if rule.key not in told:
                    told.add(rule.key)
                    self.add(Difference.of(rule, "known state", exchange, [exchange.step], [exchange.octets]))

    def _comes_again(self, ask: Ask) -> Exchange | None:
        """A read that differs twice, which is no slip."""
        exchange = self.on_both(ask)
        if exchange.mismatch is None or exchange.mismatch.kind not in _READS:
            return None
        again = self.on_both(ask)
        if again.mismatch == exchange.mismatch:
            return again
        self._wrong_once(exchange)
        return None

    def _wrong_once(self, exchange: Exchange, note: str = "") -> None:
        """A read had a wrong value, and the right one when it was read again."""
        held = Difference.of(RULES["get"], "before", exchange, [exchange.step], [exchange.octets])
        held.is_repeated, held.note = False, note
        self.results.once_before.append(held)

    def tell_unreached(self, unreached: list[Unreached]) -> None:
        """The first of the objects is told, with the others by name; all are left out from here on."""
        first = unreached[0]
        exchange, difference = self.shown_by(first)
        difference.note = _note(unreached)
        difference.rule = self.rule_of_unreached(exchange)
        self.pair.masked.update(held.name for held in unreached)
        self.add(difference)

    def shown_by(self, held: Unreached) -> tuple[Exchange, Difference]:
        """The requests that are to bring the object there, once more at both, up to the first that differs."""
        steps = held.steps(self.context.rows[0] if self.context.rows else None)
        sent: list[bytes | None] = []
        exchange: Exchange | None = None
        for step in steps:
            if isinstance(step, Wait):
                sent.append(None)
                self.pair.ticks.wait(step.ticks)
                self.pair.pass_ticks()
            elif isinstance(step, Ask):
                exchange = self.on_both(step)
                sent.append(exchange.octets)
                if exchange.mismatch is not None:
                    break
        assert exchange is not None
        exchange.mismatch = exchange.mismatch or Mismatch(Kind.VALUE, (held.name,))
        return exchange, Difference.of(RULES["set"], "known state", exchange, steps[: len(sent)], sent)

    def on_both(self, step: Ask) -> Exchange:
        """A request to both; the one under test may be asked again only where it reads."""
        number = self.pair.port.new_number()
        octets = step.octets(number, self.pair.communities)
        if step.kind == wire.SET:
            theirs = self.pair.port.ask_once(octets, number).reply
        else:
            theirs = self.pair.port.ask(octets, number).reply
        ours = self.pair.hand(octets)
        return Exchange(step, octets, ours, theirs, mismatch(ours, theirs))

    def rule_of_unreached(self, exchange: Exchange) -> Rule:
        if exchange.ours == exchange.theirs or exchange.mismatch is None:
            return RULES["set"]
        rule = classify.rule_of(exchange.octets, exchange.ours, exchange.theirs, exchange.mismatch)
        if rule.key == "deciding" and exchange.mismatch.kind is Kind.STATUS:
            cause = self.reset.read([_CAUSE])[_CAUSE]
            if cause is not None and isinstance(cause[1], int):
                return RULES[classify.BY_CAUSE.get(cause[1], "deciding")]
        return rule


def _is_gap(before: Name, after: Name | None) -> bool:
    """Whether an object may stand between two instances: not between two rows of a column that follow each other."""
    return after is None or before[:-1] != after[:-1] or after[-1] != before[-1] + 1


def _note(unreached: list[Unreached]) -> str:
    """What cannot be brought to its value, in words."""
    first, others = unreached[0], ", ".join(spoken(held.name) for held in unreached[1:4])
    read = value_words(first.read, first.name) if first.read else "nothing"
    said = f"{spoken(first.name)} cannot be brought to {value_words(first.wanted, first.name)}: it reads {read}"
    if others:
        said += f"; nor can {others}" + (" and others" if len(unreached) > 4 else "")
    return said


# --- what is read before anything is sent that changes the sign ---


def _described(context: Context) -> dict[Name, Value]:
    """What the description says of the instances that no request changes."""
    held = context.described
    wanted = {
        scalar("vmsSignHeightPixels"): integer(held.face.height),
        scalar("vmsSignWidthPixels"): integer(held.face.width),
        scalar("dmsColorScheme"): integer(3),
        scalar("dmsNumPermanentMsg"): integer(len(held.permanent)),
        scalar("dmsMaxChangeableMsg"): integer(held.changeable),
        scalar("dmsMaxVolatileMsg"): integer(held.volatile),
    }
    for row, message in zip(context.permanent, held.permanent):
        wanted |= {
            row.cell(Column.TEXT): octets(message.text),
            row.cell(Column.OWNER): octets(message.owner),
            row.cell(Column.BEACON): integer(message.beacon),
            row.cell(Column.PIXEL_SERVICE): integer(message.pixel),
            row.cell(Column.PRIORITY): integer(message.priority),
        }
    return wanted


def _unused(context: Context) -> dict[Name, Value]:
    """The status of rows that nobody uses."""
    return {row.cell(Column.STATUS): integer(RowStatus.NOT_USED) for row in context.rows}


def _differing(reset: Reset, wanted: dict[Name, Value]) -> list[tuple[Name, Value, Value | None]]:
    """Each object that reads otherwise, with what is described and what is read."""
    names = [name for name in wanted if not reset.context.claims.is_missing(name)]
    have = reset.read(names)
    return [(name, wanted[name], have[name]) for name in names if have[name] != wanted[name]]


def _is_heard(reset: Reset) -> bool:
    """Whether anything answers."""
    return spelled(reset.ask_height() or b"") is not None
