-- The runs of a plan, the last of which is looked for, however many there are.
CREATE INDEX plan_runs_of ON plan_runs (plan, id);
