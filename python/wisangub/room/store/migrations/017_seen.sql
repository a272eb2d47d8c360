-- When something was last asked for by a log-in, so that it ends where nobody is there; nothing where it only began.
ALTER TABLE logins ADD COLUMN seen DOUBLE PRECISION;
