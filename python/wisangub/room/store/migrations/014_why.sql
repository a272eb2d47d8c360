-- What the sign said of a command that ended since its row was in error; nothing where it did not say it.
ALTER TABLE commands ADD COLUMN why TEXT;
