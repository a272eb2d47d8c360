-- When each sign is read and was heard last: written at each reading, so on PostgreSQL it is in no log, and empty after a
-- crash. `read_at` is when it was asked; `number` the request's number of that, out of those down to `floor` that were
-- taken for it; `said` the number that it answered last, when (`heard`) and with which minutes; `newest` the row of
-- readings that says what it shows since.
CREATE {unlogged}TABLE hearings (
    sign BIGINT PRIMARY KEY,
    read_at DOUBLE PRECISION NOT NULL DEFAULT 0,
    number BIGINT NOT NULL DEFAULT 0,
    floor BIGINT NOT NULL DEFAULT 0,
    newest BIGINT NOT NULL DEFAULT 0,
    said BIGINT NOT NULL DEFAULT 0,
    heard DOUBLE PRECISION,
    minutes BIGINT
);
