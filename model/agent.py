"""A sign and what firmware publishes beside it, behind one address."""

from . import replies, wire
from .description import Description
from .device import Device, Object
from .font_objects import FontObjects
from .sign import Answer, Sign


class Agent:
    """Without objects, and without those of fonts, it answers as the sign does."""

    def __init__(self, described: Description) -> None:
        self.sign, self.device = Sign(described), Device()
        self.of_sign: list[replies.Readable] = [self.sign.objects]

    @property
    def objects(self) -> replies.Joined:
        """All that can be read."""
        return replies.Joined([*self.of_sign, self.device])

    def show_fonts(self) -> bool:
        """From here on fonts can be read; not where an object is published already."""
        if not self.device.objects:
            self.of_sign = [self.sign.objects, FontObjects(self.sign.state.face)]
        return not self.device.objects

    def publish(self, published: Object) -> str | None:
        """The object is there, or why it is not."""
        if published.access is not None and not published.access.takes(published.value):
            return "the value is not one that its access takes"
        if replies.Joined(self.of_sign).value(published.name) is not None:
            return "the sign has an object of this name"
        self.device.publish(published)
        return None

    def receive(self, datagram: bytes) -> Answer:
        """The reply and the activation that was accepted, each None where there is none."""
        message = self.sign.heard(datagram)
        if message is None:
            return None, None
        if message.kind != wire.SET:
            return replies.written(message, replies.read(message, self.objects)), None
        if not self.device.has_all(message):
            return self.sign.set(message)
        status, index = self.device.set(message, message.community == self.sign.state.writer)
        return replies.written(message, (status, index, message.bindings)), None
