-- Groups of signs: routes, regions and others; a sign may be in many. One, of kind `all`, has every sign that there is or
-- will be, and no row below.
CREATE TABLE sign_groups (
    id {key},
    name TEXT NOT NULL UNIQUE,
    kind TEXT NOT NULL CHECK (kind IN ('route', 'region', 'group', 'all'))
);

INSERT INTO sign_groups (name, kind) VALUES ('all signs', 'all');

CREATE TABLE group_members (
    of_group BIGINT NOT NULL REFERENCES sign_groups (id),
    sign BIGINT NOT NULL REFERENCES signs (id),
    PRIMARY KEY (of_group, sign)
);

CREATE INDEX group_members_of_sign ON group_members (sign);

-- What a user may do on the signs of a group, within his role: 1 see them, 2 also blank them and show approved texts, 3 also
-- show any text. Those that there are keep what they had.
CREATE TABLE rights (
    name TEXT NOT NULL REFERENCES users (name),
    of_group BIGINT NOT NULL REFERENCES sign_groups (id),
    level BIGINT NOT NULL CHECK (level BETWEEN 1 AND 3),
    PRIMARY KEY (name, of_group)
);

INSERT INTO rights (name, of_group, level) SELECT users.name, sign_groups.id, 3 FROM users, sign_groups;

-- The kind of signs that a sign is of (room/fleet.py, Sign.kind), once a program has entered it again.
ALTER TABLE signs ADD COLUMN kind TEXT;
