"""Objects that firmware publishes beside a sign's: a name, a value, and what a manager may write there."""

from dataclasses import dataclass

from . import wire

NONE = "there is no object of this name"


@dataclass(frozen=True)
class Access:
    """Which values a manager may write: those of one type, as a number or by their length, from a least to a most."""

    tag: int  # INTEGER or OCTETS
    least: int
    most: int

    def takes(self, value: wire.Tagged) -> bool:
        """Whether a value is one of these."""
        tag, held = value
        return tag == self.tag and self.least <= (held if tag == wire.INTEGER else len(held)) <= self.most


@dataclass
class Object:
    """An object, read alone where it has no access; whether a manager set it since firmware last asked, and whether its
    value is one that a manager set."""

    name: wire.Name
    value: wire.Tagged
    access: Access | None = None
    is_set: bool = False
    by_manager: bool = False

    def set(self, value: wire.Tagged) -> None:
        """It has a manager's value."""
        self.value, self.is_set, self.by_manager = value, True, True


class Device:
    """The objects that are published, by their names."""

    def __init__(self) -> None:
        self.objects: dict[wire.Name, Object] = {}

    def value(self, name: wire.Name) -> wire.Tagged | None:
        """What an object reads; None where there is none of this name."""
        found = self.objects.get(name)
        return None if found is None else found.value

    def after(self, name: wire.Name) -> wire.Name | None:
        """The first name that stands behind this one; None behind the last."""
        return min((other for other in self.objects if other > name), default=None)

    def publish(self, published: Object) -> None:
        """It is there, in place of the one that had its name."""
        self.objects[published.name] = published

    def withdraw(self, name: wire.Name) -> bool:
        """It is there no more; whether it was."""
        return self.objects.pop(name, None) is not None

    def has_all(self, message: wire.Message) -> bool:
        """Whether a message names objects, and these alone."""
        return bool(message.bindings) and all(name in self.objects for name, _ in message.bindings)

    def set(self, message: wire.Message, is_writer: bool) -> tuple[int, int]:
        """The error-status and the index of a Set of objects that are there: all of it is done, or nothing."""
        for at, (name, value) in enumerate(message.bindings, 1):
            access = self.objects[name].access
            if not is_writer or access is None:
                return wire.NO_SUCH_NAME, at
            if not access.takes(value):
                return wire.BAD_VALUE, at
            if name in (earlier for earlier, _ in message.bindings[: at - 1]):
                return wire.GENERAL, at
        for name, value in message.bindings:
            self.objects[name].set(value)
        return wire.NO_ERROR, 0

    def put_back(self, name: wire.Name, value: wire.Tagged) -> str | None:
        """The object of this name has a manager's value again, where there is one that takes it; else why not."""
        found = self.objects.get(name)
        if found is None:
            return NONE
        if found.access is None or not found.access.takes(value):
            return "the object does not take this value"
        found.set(value)
        return None

    def taken(self) -> list[Object]:
        """The objects that were set since this was last asked, in the order of names."""
        found = [self.objects[name] for name in sorted(self.objects) if self.objects[name].is_set]
        for one in found:
            one.is_set = False
        return found
