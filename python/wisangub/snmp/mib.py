"""Names and words of objects, as mibs/ has them: those of a sign, and those that stand beside a sign's."""

import re

from wisangub.process.places import TOP

FILE = TOP / "mibs/DMS-PROFILE-MIB"
BESIDE = (TOP / "mibs/RFC1213-MIB", TOP / "mibs/DMS-DEVICE-MIB")
_ROOTS = {"enterprises": (1, 3, 6, 1, 4, 1), "mgmt": (1, 3, 6, 1, 2)}
_PLACE = re.compile(
    r"^([\w-]+)\s+(?:OBJECT IDENTIFIER|OBJECT-TYPE(.*?))\s*::= \{ ([\w-]+) (\d+) \}", re.MULTILINE | re.DOTALL
)
_CHOICES = re.compile(r"SYNTAX\s+INTEGER \{(.*?)\}", re.DOTALL)


class Mib:
    """Objects by their names' numbers, each with the words of its values."""

    def __init__(self, text: str) -> None:
        self.objects: dict[tuple[int, ...], str] = {}
        self.words: dict[str, dict[int, str]] = {}
        places: dict[str, tuple[int, ...]] = {**_ROOTS}
        for name, syntax, above, number in _PLACE.findall(text):
            if above in places:
                places[name] = (*places[above], int(number))
                self.objects[places[name]] = name
                found = _CHOICES.search(syntax)
                self.words[name] = (
                    {int(value): word for word, value in re.findall(r"(\w+)\((\d+)\)", found[1])} if found else {}
                )

    @staticmethod
    def read() -> "Mib":
        """Those of the files, or none where they are not here."""
        try:
            return Mib("\n".join(path.read_text(encoding="utf-8") for path in (FILE, *BESIDE)))
        except OSError:
            return Mib("")

    def split(self, name: tuple[int, ...]) -> tuple[str, tuple[int, ...]]:
        """The object of a name, the longest that there is, and the numbers after it."""
        for size in range(len(name), 0, -1):
            if name[:size] in self.objects:
                return self.objects[name[:size]], name[size:]
        return "", name

    def name(self, name: tuple[int, ...]) -> str:
        """A name with its object's."""
        known, rest = self.split(name)
        return ".".join([known, *map(str, rest)] if known else map(str, rest))

    def word(self, name: tuple[int, ...], value: int) -> str:
        """The word of a value, where its object has one."""
        return self.words.get(self.split(name)[0], {}).get(value, "")
