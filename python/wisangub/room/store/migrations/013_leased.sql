-- When a lease was taken or renewed, so that it is over where the clock is before that: it lasts as long as it was taken
-- for and no longer, whatever the clock does. Those that there are end now; a lease is no lock.
ALTER TABLE signs ADD COLUMN leased DOUBLE PRECISION NOT NULL DEFAULT 0;
UPDATE signs SET holder = NULL;
