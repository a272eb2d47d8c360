-- What a sign says of itself, as JSON by the names of the MIB, without what it measures; what is wrong with it
-- (shortErrorStatus, 0 where it has none); by the request's number of the Get that said so first, and since when.
CREATE TABLE devices (
    sign BIGINT PRIMARY KEY REFERENCES signs (id),
    number BIGINT NOT NULL,
    since DOUBLE PRECISION NOT NULL,
    said TEXT NOT NULL,
    errors BIGINT NOT NULL
);

-- When each sign was asked that, and for how many seconds that is enough; the number of the Get that it answered last, when,
-- and what it measures; which names it has not, as JSON, and when it was last asked for all. On PostgreSQL it is in no log,
-- and empty after a crash.
CREATE {unlogged}TABLE device_hearings (
    sign BIGINT PRIMARY KEY,
    asked_at DOUBLE PRECISION NOT NULL,
    enough DOUBLE PRECISION NOT NULL,
    number BIGINT NOT NULL DEFAULT 0,
    heard DOUBLE PRECISION,
    measured TEXT NOT NULL DEFAULT '{}',
    lacking TEXT NOT NULL DEFAULT '[]',
    all_asked_at DOUBLE PRECISION NOT NULL DEFAULT 0
);
