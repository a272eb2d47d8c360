-- The greatest number of a sign's lines that are in an archive and no longer here: a line of such a number is refused, as
-- if the one before stood here.
ALTER TABLE signs ADD COLUMN archived BIGINT NOT NULL DEFAULT 0;

-- The history by who asked, by what failed or has not ended, and by day; the audit by who and by day.
CREATE INDEX commands_of_who ON commands (who, id);
CREATE INDEX commands_failed ON commands (id) WHERE outcome <> 'accepted';
CREATE INDEX commands_failed_of_who ON commands (who, id) WHERE outcome <> 'accepted';
CREATE INDEX commands_open ON commands (id) WHERE outcome IS NULL;
CREATE INDEX commands_asked ON commands (asked_at);
CREATE INDEX audit_of_who ON audit (who, id);
CREATE INDEX audit_at ON audit (at);
