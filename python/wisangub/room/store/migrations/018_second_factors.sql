-- The second factor of a user: the secret of his codes (RFC 6238) in base 32, since when, and the last step of time whose
-- code was taken, since a code counts once.
CREATE TABLE second_factors (
    name TEXT PRIMARY KEY REFERENCES users (name),
    secret TEXT NOT NULL,
    since DOUBLE PRECISION NOT NULL,
    used BIGINT NOT NULL
);
