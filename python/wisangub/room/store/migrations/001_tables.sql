-- Times are seconds since 1970 by the database's clock; octets are pairs of hexadecimal digits.

-- A sign of the fleet, who drives it until when, the number of the line that its centre begins with, and its readings:
-- when the last was asked, and the least request's number.
CREATE TABLE signs (
    id {key},
    name TEXT NOT NULL UNIQUE,
    place TEXT NOT NULL,
    address TEXT NOT NULL,
    poll DOUBLE PRECISION NOT NULL,
    holder TEXT,
    until DOUBLE PRECISION NOT NULL DEFAULT 0,
    centre BIGINT NOT NULL DEFAULT 1,
    polled DOUBLE PRECISION NOT NULL DEFAULT 0,
    reading_number BIGINT NOT NULL DEFAULT 0
);

-- A sign's journal: each line that a centre was handed, or that a new centre begins with. A number is used once.
CREATE TABLE lines (
    sign BIGINT NOT NULL REFERENCES signs (id),
    number BIGINT NOT NULL,
    line TEXT NOT NULL,
    worker TEXT NOT NULL,
    at DOUBLE PRECISION NOT NULL,
    PRIMARY KEY (sign, number)
);

-- What an operator asked for. `number` is that of its line, once it was begun; `how` says how it ended.
CREATE TABLE commands (
    id {key},
    sign BIGINT NOT NULL REFERENCES signs (id),
    who TEXT NOT NULL,
    at DOUBLE PRECISION NOT NULL,
    line TEXT NOT NULL,
    number BIGINT,
    ended DOUBLE PRECISION,
    how TEXT
);

-- one command of a sign at a time
CREATE UNIQUE INDEX commands_begun ON commands (sign) WHERE number IS NOT NULL AND how IS NULL;
CREATE INDEX commands_waiting ON commands (sign, id) WHERE how IS NULL;

-- The activations by their requests' numbers, each in here before its datagram goes out.
CREATE TABLE ledger (
    sign BIGINT NOT NULL REFERENCES signs (id),
    number BIGINT NOT NULL,
    code TEXT NOT NULL,
    outcome TEXT NOT NULL,
    at DOUBLE PRECISION NOT NULL,
    PRIMARY KEY (sign, number)
);

-- What a sign said it shows, from `at` on, last heard at `heard`; or why it said nothing.
CREATE TABLE readings (
    sign BIGINT NOT NULL REFERENCES signs (id),
    number BIGINT NOT NULL,
    at DOUBLE PRECISION NOT NULL,
    heard DOUBLE PRECISION NOT NULL,
    minutes BIGINT,
    shown TEXT,
    fault TEXT,
    PRIMARY KEY (sign, number)
);

-- Who may do what; nothing reads it before there is a log-in.
CREATE TABLE users (
    name TEXT PRIMARY KEY,
    role TEXT NOT NULL CHECK (role IN ('reader', 'operator', 'administrator')),
    secret TEXT NOT NULL
);

-- Who asked for what, a line a command.
CREATE TABLE audit (
    id {key},
    at DOUBLE PRECISION NOT NULL,
    who TEXT NOT NULL,
    what TEXT NOT NULL
);
