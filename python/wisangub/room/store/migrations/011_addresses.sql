-- The addresses that signs have or had: one is one sign's alone. `now` is 1 for those that the sign has, 0 for those that
-- it had before.
CREATE TABLE addresses (
    address TEXT PRIMARY KEY,
    sign BIGINT NOT NULL REFERENCES signs (id),
    now BIGINT NOT NULL
);

CREATE INDEX addresses_of_sign ON addresses (sign);

-- Of signs that were entered under one address, the last one has it.
INSERT INTO addresses (address, sign, now) SELECT address, max(id), 1 FROM signs GROUP BY address;
