-- What a text is for: its priority, while shown and of its activation, and the row of the changeable memory that it is
-- written into, so that an accident's text takes no place from road work's.
CREATE TABLE purposes (
    id {key},
    name TEXT NOT NULL UNIQUE,
    priority BIGINT NOT NULL CHECK (priority BETWEEN 1 AND 254),
    number BIGINT NOT NULL CHECK (number BETWEEN 1 AND 255)
);

INSERT INTO purposes (name, priority, number) VALUES ('accident', 200, 2);
INSERT INTO purposes (name, priority, number) VALUES ('danger', 150, 3);
INSERT INTO purposes (name, priority, number) VALUES ('road work', 100, 1);
INSERT INTO purposes (name, priority, number) VALUES ('information', 50, 4);

-- The library: texts by folder and name, as octets, and who wrote each last.
CREATE TABLE texts (
    id {key},
    folder TEXT NOT NULL,
    name TEXT NOT NULL,
    text TEXT NOT NULL,
    purpose BIGINT NOT NULL REFERENCES purposes (id),
    written_by TEXT NOT NULL,
    written_at DOUBLE PRECISION NOT NULL,
    UNIQUE (folder, name)
);

-- Who approved a text for a kind of signs: those of one description, but for its communities, by the digest of it.
CREATE TABLE approvals (
    text BIGINT NOT NULL REFERENCES texts (id),
    kind TEXT NOT NULL,
    approved_by TEXT NOT NULL,
    approved_at DOUBLE PRECISION NOT NULL,
    PRIMARY KEY (text, kind)
);

-- Words that no sign may show.
CREATE TABLE forbidden_words (word TEXT PRIMARY KEY);
