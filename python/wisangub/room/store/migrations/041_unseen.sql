-- Alarms of a sign that nobody has seen, the newest of which are listed, however many there are.
CREATE INDEX alarms_unseen_of ON alarms (sign, id) WHERE seen_by IS NULL;
