-- Which commands have a word of which something stands anywhere: of each word of what a command has shown, in capitals or
-- not, with its tags and without, every end of two characters or more, cut to twenty. words.py says which words these are
-- of SQLite, and looks for them. What is added to either is added to both, and the index is made anew.

{postgresql} CREATE FUNCTION command_words(line TEXT) RETURNS tsvector
    LANGUAGE plpgsql IMMUTABLE STRICT PARALLEL SAFE COST 1000 AS $$
DECLARE
    parts TEXT[] := string_to_array(line, ' ');
    octets TEXT;
    said TEXT := '';
    plain TEXT;
BEGIN
    IF parts[1] = 'publish' THEN
        said := concat(parts[2], ' ', parts[3]);
        octets := left(parts[4], 8000);
        IF octets ~ '^([0-9A-Fa-f][0-9A-Fa-f])+$' THEN
            IF position('00' IN octets) > 0 THEN
                octets := regexp_replace(regexp_replace(octets, '(..)', ' \1', 'g'), ' 00', '20', 'g');
            END IF;
            plain := convert_from(decode(octets, 'hex'), 'LATIN1');
            said := concat(said, ' ', plain);
            IF plain LIKE '%[%' OR plain LIKE '%]%' THEN
                said := concat(said, ' ', (
                    SELECT string_agg(CASE
                        WHEN piece NOT LIKE '[%' AND piece NOT LIKE ']%' THEN piece
                        WHEN piece = ']]' OR piece ILIKE '[n_%]' AND substr(piece, 3, 1) ~* '[lp]' THEN ' '
                        WHEN piece NOT ILIKE '[hc%' OR digits !~ '^[0-9A-Fa-f]+$' THEN ''
                        WHEN code = 0 OR code BETWEEN 55296 AND 57343 THEN ' '
                        WHEN code > 255 AND getdatabaseencoding() <> 'UTF8' THEN ' '
                        ELSE chr(code) END, '' ORDER BY at)
                    FROM regexp_matches(replace(plain, '[[', ' '), '(\[[^]]*\]|[^][]+|\]\]|.)', 'g')
                        WITH ORDINALITY AS found (pieces, at),
                    unnest(pieces) AS piece,
                    btrim(substr(piece, 4, 4), ' ]') AS digits,
                    CAST(CAST('x' || lpad(substring(digits FROM '^[0-9A-Fa-f]+$'), 8, '0') AS BIT(32)) AS INTEGER) AS code));
            END IF;
        END IF;
    ELSIF parts[1] = 'blank' THEN
        said := concat(parts[2], '');
    ELSIF parts[1] = 'activate' AND parts[2] ~ '^[0-9A-Fa-f]{24}$' THEN
        octets := parts[2];
        said := concat(
            CAST(CAST('x' || lpad(substr(octets, 7, 2), 8, '0') AS BIT(32)) AS INTEGER), ' ',
            CAST(CAST('x' || lpad(substr(octets, 9, 4), 8, '0') AS BIT(32)) AS INTEGER));
    END IF;
    said := translate(said,
        'ABCDEFGHIJKLMNOPQRSTUVWXYZÀÁÂÃÄÅÆÇÈÉÊËÌÍÎÏÐÑÒÓÔÕÖØÙÚÛÜÝÞ',
        'abcdefghijklmnopqrstuvwxyzàáâãäåæçèéêëìíîïðñòóôõöøùúûüýþ');
    RETURN array_to_tsvector(ARRAY(
        SELECT substr(word, at, 20)
        FROM regexp_split_to_table(said, '[\u0001-/:-@[-`{-\u007f]+') AS word, generate_series(1, length(word) - 1) AS at));
END
$$;

-- Of commands that have ended, so that each is put in once, however often it is written meanwhile.
{postgresql} CREATE INDEX commands_words ON commands USING gin (command_words(line)) WITH (gin_pending_list_limit = 256)
    WHERE outcome IS NOT NULL;

{fts5} CREATE VIRTUAL TABLE command_words USING fts5(ends, content = '', detail = none, tokenize = 'ascii');
{fts5} INSERT INTO command_words (rowid, ends) SELECT id, command_words(line) FROM commands;
{fts5} CREATE TRIGGER commands_words_added AFTER INSERT ON commands BEGIN
    INSERT INTO command_words (rowid, ends) VALUES (new.id, command_words(new.line)); END;
{fts5} CREATE TRIGGER commands_words_removed AFTER DELETE ON commands BEGIN
    INSERT INTO command_words (command_words, rowid, ends) VALUES ('delete', old.id, command_words(old.line)); END;

-- How commands failed, each once.
CREATE INDEX commands_outcomes ON commands (outcome, id) WHERE outcome <> 'accepted';
