"""The table of commands: what operators ask for, each with its line of the audit, and how it ended."""

from dataclasses import dataclass
from typing import Collection, Mapping, Sequence

from wisangub.refusal import Refusal
from wisangub.room.plain import counted

from . import rights, rules
from .audit import note
from .connection import Database, Taken
from .shown_by import text_of
from .values import CLOCK, places, text_or_none, texts, whole, whole_or_none

GIVEN_UP = "given up"  # the first words on a command that waited for too long
_WAITS = "outcome IS NULL AND line_number IS NULL"


class Meanwhile(Refusal):
    """Something else was asked of a sign since somebody saw it."""


@dataclass(frozen=True)
class Command:
    """What an operator asked for, as a line of a centre."""

    id: int
    line: str


def priorities(line: str) -> tuple[int, int]:
    """The priority of a command's activation, and that of what it has shown; 255 where it says none."""
    words = line.split(" ")
    try:
        if words[0] == "publish":
            return int(words[9]), int(words[7])
        if words[0] == "activate":
            return bytes.fromhex(words[1])[2], bytes.fromhex(words[1])[2]
        if words[0] == "blank":
            return int(words[3]), int(words[3])
    except (ValueError, IndexError):
        pass  # the centre refuses it
    return 255, 255


def is_above(line: str, other: str) -> bool:
    """Whether a command shows a text that is more urgent than another command: it takes that away whatever it is, as an
    accident's text those of a computer that writes anew each minute. A blank never is."""
    return not line.startswith("blank ") and priorities(line)[0] > priorities(other)[1]


class Commands:
    """Commands of all signs."""

    def __init__(self, database: Database) -> None:
        self.database = database
        self._run = database.run

    def ask(self, sign: int, who: str, line: str) -> int:
        """A command that waits for its turn: its number. One that has a sign show a forbidden word is refused."""
        with self.database.transaction():
            return self._put(sign, who, line, rules.words(self.database))

    def ask_all(
        self,
        lines: Sequence[tuple[int, str]],
        who: str,
        what: str,
        confirmation: str,
        through: str = "",
        newest: int | None = None,
    ) -> int:
        """A command for each of these signs, or for none: the number of what was asked, which `what` says in words. A
        confirmation counts once: where it is there already, what was asked with it then. `through` is what another
        system asked through, for the audit. Refused as in `ask`, and where the user may not give one of them; and
        where something was asked of one of the signs since the command `newest`, which somebody saw as the last one,
        where that is said. Of those that ask so one is under way at a time."""
        try:
            with self.database.transaction(is_alone=True):
                rights.check(self.database, who, lines)
                batch = self.put_all(lines, who, what, confirmation)
                if newest is not None:
                    self._check_none_since(dict(lines), newest, batch)
                if through:
                    note(self.database, who, f"{what} on {counted(len(lines), 'sign')} was asked for through {through}")
                return batch
        except Taken:
            rows = self._run("SELECT id FROM batches WHERE confirmation = ? AND who = ?", confirmation, who)
            if not rows:
                raise
            return whole(rows[0][0])

    def newest(self, signs: Sequence[int]) -> int:
        """The number of the newest command of these signs; 0 where there is none."""
        if not signs:
            return 0
        rows = self._run(f"SELECT max(id) FROM commands WHERE sign IN ({places(signs)})", *signs)
        return whole_or_none(rows[0][0]) or 0

    def _check_none_since(self, lines: Mapping[int, str], newest: int, batch: int) -> None:
        """Refuses what somebody asks for who does not know what else was: all commands since but for his own, those
        that were withdrawn, and those that are less urgent than a text of his."""
        rows = self._run(
            "SELECT commands.sign, commands.line, commands.who, signs.name FROM commands"
            f" JOIN signs ON signs.id = commands.sign WHERE commands.sign IN ({places(lines)}) AND commands.id > ?"
            " AND COALESCE(commands.outcome, '') NOT LIKE 'withdrawn by %'"
            " AND commands.id NOT IN (SELECT command FROM batch_commands WHERE batch = ?)"
            " ORDER BY commands.id DESC",
            *lines,
            newest,
            batch,
        )
        for sign, line, who, name in rows:
            if not is_above(lines[whole(sign)], str(line)):
                raise Meanwhile(f"{who} has asked for something else of {name} meanwhile")

    def put_all(self, lines: Sequence[tuple[int, str]], who: str, what: str, confirmation: str) -> int:
        """What was asked together, within a transaction of who has found that it may be asked for: its number."""
        rows = self._run(
            f"INSERT INTO batches (confirmation, who, at, what) VALUES (?, ?, {CLOCK}, ?) RETURNING id",
            confirmation,
            who,
            what,
        )
        self.put_more(whole(rows[0][0]), lines, who)
        return whole(rows[0][0])

    def put_more(self, batch: int, lines: Sequence[tuple[int, str]], who: str) -> None:
        """Commands that are a part of what was asked together, within such a transaction too."""
        forbidden = rules.words(self.database)
        for sign, line in lines:
            command = self._put(sign, who, line, forbidden)
            self._run("INSERT INTO batch_commands (batch, command) VALUES (?, ?)", batch, command)

    def _put(self, sign: int, who: str, line: str, forbidden: list[str]) -> int:
        """A command with its line of the audit, within a transaction: its number."""
        if forbidden:
            rules.check(text_of(self.database, sign, line), forbidden)
        rows = self._run(
            f"INSERT INTO commands (sign, who, asked_at, line) VALUES (?, ?, {CLOCK}, ?) RETURNING id", sign, who, line
        )
        note(self.database, who, f"{self._name_of(sign)}: {line}")
        if line.startswith("activate "):
            self._note_row(sign, who, line)
        return whole(rows[0][0])

    def _note_row(self, sign: int, who: str, line: str) -> None:
        """What stood in a row that is shown, which neither the command says nor, once it is written anew, the table."""
        text = text_of(self.database, sign, line).decode("latin-1")
        said = "".join(one if one.isprintable() else "?" for one in text)
        words = f"as it was last read: “{said}”" if said else "which was not read, or has no text"
        note(self.database, who, f"{self._name_of(sign)}: the row that is to be shown, {words}")

    def _name_of(self, sign: int) -> str:
        """The sign's name."""
        return texts(self._run("SELECT name FROM signs WHERE id = ?", sign))[0]

    def begun(self, sign: int) -> tuple[Command, int] | None:
        """The command that is under way, and the number of its line."""
        return self.begun_of([sign]).get(sign)

    def begun_of(self, signs: Sequence[int]) -> dict[int, tuple[Command, int]]:
        """Those of many signs."""
        if not signs:
            return {}
        rows = self._run(
            f"SELECT sign, id, line, line_number FROM commands WHERE sign IN ({places(signs)})"
            " AND line_number IS NOT NULL AND outcome IS NULL",
            *signs,
        )
        return {whole(row[0]): (Command(whole(row[1]), str(row[2])), whole(row[3])) for row in rows}

    def next(self, sign: int) -> Command | None:
        """The command whose turn it is."""
        return self.next_of([sign]).get(sign)

    def next_of(self, signs: Sequence[int]) -> dict[int, Command]:
        """Those of many signs."""
        if not signs:
            return {}
        rows = self._run(
            f"SELECT sign, id, line FROM commands WHERE id IN (SELECT min(id) FROM commands WHERE outcome IS NULL"
            f" AND line_number IS NULL AND sign IN ({places(signs)}) GROUP BY sign)",
            *signs,
        )
        return {whole(row[0]): Command(whole(row[1]), str(row[2])) for row in rows}

    def end(self, command: int, how: str) -> None:
        """How a command ended, in words; the first word on it stands."""
        self._run(f"UPDATE commands SET outcome = ?, ended = {CLOCK} WHERE id = ? AND outcome IS NULL", how, command)

    def withdraw(self, command: int, who: str) -> bool:
        """Ends a command that waits for its turn, and says so in the audit; False where it was begun, or has ended, or
        where there is none. Refused where the user may not command its sign."""
        with self.database.transaction():
            for (sign,) in self._run("SELECT sign FROM commands WHERE id = ?", command):
                rights.need(self.database, who, whole(sign))
            return self.end_waiting(command, who)

    def end_waiting(self, command: int, who: str) -> bool:
        """Withdraws a command, within a transaction of who has found that it may be."""
        rows = self._run(
            f"UPDATE commands SET outcome = ?, ended = {CLOCK}"
            " WHERE id = ? AND line_number IS NULL AND outcome IS NULL RETURNING sign",
            f"withdrawn by {who}",
            command,
        )
        if rows:
            note(self.database, who, f"{self._name_of(whole(rows[0][0]))}: command {command} is withdrawn")
        return bool(rows)

    def waiting(self, seconds: float | None = None) -> set[int]:
        """The commands whose turn has not come: all, or those that were asked for so long ago by the database's
        clock."""
        late = "" if seconds is None else " AND asked_at + ? < {clock}"
        rows = self._run(f"SELECT id FROM commands WHERE {_WAITS}{late}", *([] if seconds is None else [seconds]))
        return {whole(row[0]) for row in rows}

    def give_up(self, late: Collection[int], seconds: float) -> None:
        """Ends these commands, which have waited for their turn for so long, with a line of the audit each: what nobody
        could carry out is not put on a road hours later. What is under way is its centre's to end."""
        if not late:
            return
        with self.database.transaction(is_alone=True):
            rows = self._run(
                f"UPDATE commands SET outcome = ?, ended = {CLOCK} WHERE {_WAITS} AND id IN ({places(late)})"
                " RETURNING id, sign, who",
                f"{GIVEN_UP}: its turn did not come within {seconds:g} seconds",
                *sorted(late),
            )
            for command, sign, who in sorted(rows):
                note(self.database, str(who), f"{self._name_of(whole(sign))}: command {command} is given up")

    def how(self, command: int) -> str | None:
        """How a command ended; None where it has not."""
        return text_or_none(self._run("SELECT outcome FROM commands WHERE id = ?", command)[0][0])

    def because(self, said: Sequence[tuple[int, str]]) -> None:
        """What signs said of commands that ended with a row in error."""
        if said:
            with self.database.transaction():
                self.database.run_all(
                    "UPDATE commands SET why = ? WHERE id = ?", [(words, command) for command, words in sorted(said)]
                )

    def why(self, command: int) -> str:
        """What the sign said of it."""
        return str(self._run("SELECT why FROM commands WHERE id = ?", command)[0][0] or "")

    def address(self, command: int) -> str:
        """The address of the command's sign."""
        rows = self._run("SELECT address FROM signs WHERE id = (SELECT sign FROM commands WHERE id = ?)", command)
        return texts(rows)[0]
