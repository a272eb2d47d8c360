-- Columns are called what they hold. No row changes. A program of before is refused from here on: it takes the copy that
-- `wisangub-control backup copy` made of the database before this ran.

-- Of a command: how it ended, the number of the line that it began with, and when it was asked for.
ALTER TABLE commands RENAME COLUMN how TO outcome;
ALTER TABLE commands RENAME COLUMN number TO line_number;
ALTER TABLE commands RENAME COLUMN at TO asked_at;

-- Of a sign: who drives it, until when, and since when; the number that its next centre begins with at least.
ALTER TABLE signs RENAME COLUMN holder TO leased_by;
ALTER TABLE signs RENAME COLUMN until TO leased_until;
ALTER TABLE signs RENAME COLUMN leased TO leased_at;
ALTER TABLE signs RENAME COLUMN least TO first_number;

-- When what it shows was last asked for, and when its table was; whether somebody wants its table before its time.
ALTER TABLE signs RENAME COLUMN polled TO read_at;
ALTER TABLE signs RENAME COLUMN tabled TO table_read_at;
ALTER TABLE signs RENAME COLUMN wanted TO table_wanted;
