-- The command that an activation was sent for; nothing where that was before this.
ALTER TABLE ledger ADD COLUMN command BIGINT;
