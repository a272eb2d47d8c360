-- A plan: texts that are put on signs together, and taken off together.
CREATE TABLE plans (
    id {key},
    name TEXT NOT NULL UNIQUE
);

-- What it puts on each sign, as a line of a centre.
CREATE TABLE plan_texts (
    plan BIGINT NOT NULL REFERENCES plans (id),
    sign BIGINT NOT NULL REFERENCES signs (id),
    line TEXT NOT NULL,
    PRIMARY KEY (plan, sign)
);

-- When it is on: from the first day to the last, on these days of the week (0 is Monday), from and until these times of a
-- zone, or of the worker's machine where none is named; without days from the first day's time to the last day's without a
-- break. The author is in whose name and with whose rights it is done; `code` is a schedule's alone, also of those that
-- were removed.
CREATE TABLE schedules (
    id {key},
    code TEXT NOT NULL UNIQUE,
    plan BIGINT NOT NULL REFERENCES plans (id),
    author TEXT NOT NULL REFERENCES users (name),
    first_day TEXT NOT NULL,
    last_day TEXT NOT NULL,
    days TEXT NOT NULL,
    begins TEXT NOT NULL,
    ends TEXT NOT NULL,
    zone TEXT NOT NULL
);

-- Each time that a plan was begun, once: by the code of a schedule and the second at which it was due, or by hand. It ends
-- at a time, or by hand where there is none; `batch` is what was asked for as it began, `said` what was left out, and why.
CREATE TABLE plan_runs (
    id {key},
    plan BIGINT NOT NULL REFERENCES plans (id),
    occurrence TEXT NOT NULL UNIQUE,
    who TEXT NOT NULL,
    begun DOUBLE PRECISION NOT NULL,
    until DOUBLE PRECISION,
    ended DOUBLE PRECISION,
    batch BIGINT REFERENCES batches (id),
    said TEXT NOT NULL
);

-- a plan is on once
CREATE UNIQUE INDEX plan_runs_on ON plan_runs (plan) WHERE ended IS NULL;

-- When it was last looked for what is due, so that one worker does it at a time.
CREATE TABLE plan_looks (at DOUBLE PRECISION NOT NULL);
INSERT INTO plan_looks (at) VALUES (0);
