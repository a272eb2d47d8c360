"""Imported before all else: until a front end waits for an interrupt, one ends it at once, and without a traceback."""

import signal

if signal.getsignal(signal.SIGINT) is signal.default_int_handler:
    signal.signal(signal.SIGINT, signal.SIG_DFL)
