-- What operators asked for of the brightness of a sign: what controls it (dmsIllumControl), and the level (dmsIllumManLevel)
-- where that is set by hand. `number` is that of the one SET that went out for it, on the disk before it did; then how it
-- ended, and what the sign read afterwards, as JSON by the names of the MIB. The newest of each sign are kept.
CREATE TABLE brightness (
    id {key},
    sign BIGINT NOT NULL REFERENCES signs (id),
    who TEXT NOT NULL,
    confirmation TEXT NOT NULL UNIQUE,
    asked_at DOUBLE PRECISION NOT NULL,
    control BIGINT NOT NULL,
    level BIGINT,
    number BIGINT,
    sent_at DOUBLE PRECISION,
    outcome TEXT,
    ended DOUBLE PRECISION,
    said TEXT,
    said_at DOUBLE PRECISION,
    UNIQUE (sign, number)
);

-- One of a sign is under way at a time.
CREATE UNIQUE INDEX brightness_under_way ON brightness (sign) WHERE outcome IS NULL;
CREATE INDEX brightness_of ON brightness (sign, id);
