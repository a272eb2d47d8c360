-- The history of a sign by who asked, and by what failed or has not ended.
CREATE INDEX commands_of_sign_who ON commands (sign, who, id);
CREATE INDEX commands_failed_of_sign ON commands (sign, id) WHERE outcome <> 'accepted';
