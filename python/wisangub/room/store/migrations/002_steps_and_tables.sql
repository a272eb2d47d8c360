-- The step of the profile that a command is at, 1 to 8, while it is under way.
ALTER TABLE commands ADD COLUMN step BIGINT;

-- A centre of this sign begins with no number below this one: set where the database was restored from a copy.
ALTER TABLE signs ADD COLUMN least BIGINT NOT NULL DEFAULT 0;

-- When the sign's table was last asked for, and whether somebody wants it before its time (1) or not (0).
ALTER TABLE signs ADD COLUMN tabled DOUBLE PRECISION NOT NULL DEFAULT 0;
ALTER TABLE signs ADD COLUMN wanted BIGINT NOT NULL DEFAULT 0;

-- The rows of a sign's message table as they were last read: memory and number of the row, the request's number of the
-- Get. A row that was never in use is not here.
CREATE TABLE messages (
    sign BIGINT NOT NULL REFERENCES signs (id),
    memory BIGINT NOT NULL,
    number BIGINT NOT NULL,
    reading BIGINT NOT NULL,
    heard DOUBLE PRECISION NOT NULL,
    status BIGINT NOT NULL,
    held TEXT,
    PRIMARY KEY (sign, memory, number)
);
