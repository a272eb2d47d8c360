-- Which lines of the audit have a word of which something stands anywhere, as 039_words.sql has of commands: ends of the
-- words of a line, of a command's as pages say it in words. Where a line may say any word, since it is no command of a centre
-- or longer than any, `0` stands in their place. words.py says which words these are of SQLite, and looks for them.

{postgresql} CREATE FUNCTION word_ends(said TEXT) RETURNS tsvector
    LANGUAGE plpgsql IMMUTABLE STRICT PARALLEL SAFE COST 1000 AS $$
BEGIN
    said := translate(said,
        'ABCDEFGHIJKLMNOPQRSTUVWXYZÀÁÂÃÄÅÆÇÈÉÊËÌÍÎÏÐÑÒÓÔÕÖØÙÚÛÜÝÞ',
        'abcdefghijklmnopqrstuvwxyzàáâãäåæçèéêëìíîïðñòóôõöøùúûüýþ');
    IF getdatabaseencoding() = 'UTF8' THEN
        said := translate(said, chr(8490) || chr(8491) || chr(7838) || chr(376), 'kåßÿ');
    END IF;
    RETURN array_to_tsvector(ARRAY(
        SELECT substr(word, at, 20)
        FROM regexp_split_to_table(said, '[\u0001-/:-@[-`{-\u007f]+') AS word, generate_series(1, length(word) - 1) AS at));
END
$$;

{postgresql} CREATE FUNCTION audit_words(what TEXT) RETURNS tsvector
    LANGUAGE plpgsql IMMUTABLE STRICT PARALLEL SAFE COST 1000 AS $$
DECLARE
    found TEXT[];
    parts TEXT[];
    minutes BIGINT;
    priorities TEXT;
BEGIN
    IF length(what) > 8000 THEN
        RETURN array_to_tsvector(ARRAY['0']);
    END IF;
    found := regexp_match(what, '^(.*): ((publish|blank|activate) .*)$');
    IF found IS NULL THEN
        RETURN word_ends(what);
    END IF;
    parts := string_to_array(found[2], ' ');
    IF found[2] ~ '^activate [0-9A-Fa-f]{24}$' THEN
        minutes := CAST(CAST('x' || lpad(left(parts[2], 4), 8, '0') AS BIT(32)) AS INTEGER);
        priorities := CAST(CAST('x' || lpad(substr(parts[2], 5, 2), 8, '0') AS BIT(32)) AS INTEGER);
    ELSIF found[2] ~
        '^(publish( [0-9]{1,9}){2}( (-|([0-9A-Fa-f]{2})+)){2}( [0-9]{1,9}){5}|blank( [0-9]{1,9}){3}) [0-9.]+$' THEN
        minutes := parts[cardinality(parts) - 2];
        priorities := concat(parts[cardinality(parts) - 3], ' ', parts[cardinality(parts) - 1]);
    ELSE
        RETURN array_to_tsvector(ARRAY['0']);
    END IF;
    RETURN command_words(found[2]) || word_ends(concat_ws(' ', found[1], priorities, minutes, minutes / 60, minutes % 60,
        minutes / 1440, minutes / 60 % 24));
END
$$;

-- Names in it are those of this schema, also where a copy is restored, which looks for names in none.
{postgresql} DO $$
BEGIN
    EXECUTE format('ALTER FUNCTION audit_words(TEXT) SET search_path = %I, pg_temp', current_schema());
END
$$;

{postgresql} CREATE INDEX audit_of_words ON audit USING gin (audit_words(what)) WITH (gin_pending_list_limit = 256);

{fts5} CREATE VIRTUAL TABLE audit_words USING fts5(ends, content = '', detail = none, tokenize = 'ascii');
{fts5} INSERT INTO audit_words (rowid, ends) SELECT id, audit_words(what) FROM audit;
{fts5} CREATE TRIGGER audit_words_added AFTER INSERT ON audit BEGIN
    INSERT INTO audit_words (rowid, ends) VALUES (new.id, audit_words(new.what)); END;
{fts5} CREATE TRIGGER audit_words_removed AFTER DELETE ON audit BEGIN
    INSERT INTO audit_words (audit_words, rowid, ends) VALUES ('delete', old.id, audit_words(old.what)); END;
