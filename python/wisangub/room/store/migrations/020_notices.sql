-- Who was told of which alarm, or is to be: how often that was tried, when it is tried again, and when it was done.
CREATE TABLE notices (
    alarm BIGINT NOT NULL REFERENCES alarms (id),
    target TEXT NOT NULL,
    tries BIGINT NOT NULL,
    next_try DOUBLE PRECISION NOT NULL,
    told DOUBLE PRECISION,
    PRIMARY KEY (alarm, target)
);
