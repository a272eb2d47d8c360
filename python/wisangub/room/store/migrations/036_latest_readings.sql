-- By signs the newest row of readings, and the newest one that says what the sign shows, so that who wants these looks into
-- no month. Each row of them stands in readings too.
CREATE TABLE latest_readings (
    sign BIGINT PRIMARY KEY REFERENCES signs (id),
    number BIGINT NOT NULL,
    at DOUBLE PRECISION NOT NULL,
    fault TEXT,
    shown_number BIGINT,
    shown_at DOUBLE PRECISION,
    shown TEXT,
    minutes BIGINT,
    heard DOUBLE PRECISION
);

INSERT INTO latest_readings (sign, number, at, fault, shown_number, shown_at, shown, minutes, heard)
    SELECT found.sign, found.number, newest.at, newest.fault, said.number, said.at, said.shown, said.minutes, said.heard
    FROM (SELECT sign, min(number) AS number, min(CASE WHEN shown IS NOT NULL THEN number END) AS shown_number
          FROM readings GROUP BY sign) AS found
    JOIN readings AS newest ON newest.sign = found.sign AND newest.number = found.number
    LEFT JOIN readings AS said ON said.sign = found.sign AND said.number = found.shown_number;
