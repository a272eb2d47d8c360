"""The signals at which a command ends, and leaves a sign as it was."""

import signal
from types import FrameType
from typing import Callable

Handler = Callable[[int, FrameType | None], None]


def on_end(handler: Handler) -> None:
    """This is called at an interrupt, at a SIGTERM, and where the terminal is gone, unless that is to be outlived, as
    under nohup."""
    for number in (signal.SIGINT, signal.SIGTERM, signal.SIGHUP):
        if number != signal.SIGHUP or signal.getsignal(number) != signal.SIG_IGN:
            signal.signal(number, handler)


def passed_over(_number: int, _frame: FrameType | None) -> None:
    """A signal after the first; SIG_IGN in its place would have Python complain of one that was on its way."""
