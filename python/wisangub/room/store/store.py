"""What the control room keeps, each table or two of it behind an object of its own over one database."""

from .addresses import Addresses
from .alarms import Alarms
from .brightness import Brightness
from .commands import Commands
from .connection import Database
from .devices import Devices
from .leases import Leases
from .lines import Lines
from .messages import Messages
from .plans import Plans
from .readings import Readings
from .signs import Signs


class Store:
    """The tables in words."""

    def __init__(self, database: Database) -> None:
        self.database = database
        self.lines = Lines(database)
        self.addresses = Addresses(database, self.lines)
        self.signs = Signs(database, self.addresses)
        self.leases = Leases(database)
        self.commands = Commands(database)
        self.readings = Readings(database)
        self.messages = Messages(database)
        self.devices = Devices(database)
        self.brightness = Brightness(database)
        self.alarms = Alarms(database)
        self.plans = Plans(database)
