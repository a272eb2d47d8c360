-- What is wrong with a sign, of a kind, from when until when; who has seen it, and when. A sign has one standing alarm of a
-- kind.
CREATE TABLE alarms (
    id {key},
    sign BIGINT NOT NULL REFERENCES signs (id),
    kind TEXT NOT NULL,
    what TEXT NOT NULL,
    begun DOUBLE PRECISION NOT NULL,
    ended DOUBLE PRECISION,
    seen_by TEXT,
    seen_at DOUBLE PRECISION
);

CREATE UNIQUE INDEX alarms_standing ON alarms (sign, kind) WHERE ended IS NULL;
CREATE INDEX alarms_unseen ON alarms (id) WHERE seen_by IS NULL;

-- When it was last looked for them, so that one worker does it at a time.
CREATE TABLE alarm_looks (at DOUBLE PRECISION NOT NULL);
INSERT INTO alarm_looks (at) VALUES (0);
