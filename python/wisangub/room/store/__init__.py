"""What the control room keeps: signs, lines, commands, readings and users, in SQLite or PostgreSQL."""

import os

# psycopg reads it as it is imported, by a connection or by a copy: select, its first choice, takes no file above 1023
os.environ.setdefault("PSYCOPG_WAIT_FUNC", "wait_selector")
