-- When each row of a sign's table was heard last, and the request's number of that Get: written at each reading of a table,
-- so on PostgreSQL it is in no log, and empty after a crash. A row of `messages` is written where it says something else,
-- and its own `reading` and `heard` are of that time.
CREATE {unlogged}TABLE row_hearings (
    sign BIGINT NOT NULL,
    memory BIGINT NOT NULL,
    number BIGINT NOT NULL,
    reading BIGINT NOT NULL,
    heard DOUBLE PRECISION NOT NULL,
    PRIMARY KEY (sign, memory, number)
);
