-- Tokens by which other systems publish and read, each in the name of a user and with his rights: the SHA-256 of what is
-- sent, until when it is good, when it was last used, and when it was ended before its time. `reads_only` is 1 for one that
-- asks for nothing; `refused` says whether the audit has that it was refused after its end.
CREATE TABLE tokens (
    id {key},
    name TEXT NOT NULL,
    of_user TEXT NOT NULL REFERENCES users (name),
    digest TEXT NOT NULL UNIQUE,
    reads_only BIGINT NOT NULL,
    made_at DOUBLE PRECISION NOT NULL,
    until DOUBLE PRECISION NOT NULL,
    used_at DOUBLE PRECISION,
    ended_at DOUBLE PRECISION,
    refused BIGINT NOT NULL DEFAULT 0
);

CREATE INDEX tokens_of_user ON tokens (of_user);
