"""What the programs of the control room say: lines of standard output, and a log on standard error."""

from wisangub.output import print_line
from wisangub.standard_error import LOGGER

__all__ = ["LOG", "print_line"]

LOG = LOGGER.getChild("room")
