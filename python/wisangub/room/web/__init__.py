"""The pages of the control room: an aiohttp application over the database; docs/CONTROL.md says what they show."""
