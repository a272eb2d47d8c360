-- What the pages keep.

-- A user who is disabled stays, since commands name him.
ALTER TABLE users ADD COLUMN disabled BIGINT NOT NULL DEFAULT 0;

-- A log-in, by the SHA-256 of what its cookie says; it ends when the user logs out, or when his password, his role or
-- his state changes.
CREATE TABLE logins (
    id TEXT PRIMARY KEY,
    name TEXT NOT NULL REFERENCES users (name),
    address TEXT NOT NULL,
    begun DOUBLE PRECISION NOT NULL,
    ended DOUBLE PRECISION
);

-- A log-in that failed, or one that is being looked at.
CREATE TABLE failed_logins (
    id {key},
    at DOUBLE PRECISION NOT NULL,
    name TEXT NOT NULL,
    address TEXT NOT NULL
);

CREATE INDEX failed_logins_at ON failed_logins (at);

-- Keys by their names, made at random once: that of the cookies' signatures.
CREATE TABLE keys (
    name TEXT PRIMARY KEY,
    value TEXT NOT NULL
);

-- What an operator asked of one or many signs with one confirmation; a confirmation counts once.
CREATE TABLE batches (
    id {key},
    confirmation TEXT NOT NULL UNIQUE,
    who TEXT NOT NULL,
    at DOUBLE PRECISION NOT NULL,
    what TEXT NOT NULL
);

CREATE TABLE batch_commands (
    batch BIGINT NOT NULL REFERENCES batches (id),
    command BIGINT NOT NULL REFERENCES commands (id),
    PRIMARY KEY (batch, command)
);

CREATE INDEX commands_of_sign ON commands (sign, id);
