"""The step of the profile (docs/PROFILE.md, "Commands") that a job is at, from the requests that go out."""

from wisangub.snmp import wire
from wisangub.snmp.mib import Mib
from wisangub.snmp.names import RowStatus

_FIRST_STATUS, _SECOND_STATUS = 2, 5  # the steps that ask for it


class Steps:
    """The last step, and whether it is another than was taken away."""

    def __init__(self, mib: Mib) -> None:
        self.mib = mib
        self.step = 0  # where no request was seen yet
        self.is_new = False

    def see(self, octets: bytes | None) -> None:
        """A request went out, or nothing."""
        message = None if octets is None else wire.spelled(octets)
        if message is None or not message.bindings:
            return
        step = self.of(message)
        self.is_new = self.is_new or step != self.step
        self.step = step

    def of(self, message: wire.Message) -> int:
        """The step whose request it is; that of the last one where it is none of them."""
        object_ = self.mib.split(message.bindings[0][0])[0]
        if message.kind == wire.SET and len(message.bindings) > 1:
            return 3
        if object_ == "dmsMessageStatus" and message.kind == wire.SET:
            return {RowStatus.MODIFY_REQ: 1, RowStatus.VALIDATE_REQ: 4}.get(message.bindings[0][1][1], self.step)
        if object_ == "dmsMessageStatus" and self.step:
            return _FIRST_STATUS if self.step in (1, _FIRST_STATUS) else _SECOND_STATUS
        return {"dmsMessageCRC": 6, "dmsActivateMessage": 7, "dmsActivateMsgError": 8}.get(object_, self.step)

    def taken(self) -> int | None:
        """The step, where it is new since it was taken."""
        is_new, self.is_new = self.is_new, False
        return self.step if is_new else None
