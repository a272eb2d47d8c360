-- Whether a refusal after this failed log-in stands in the audit: one line for each that failed, however often is tried.
ALTER TABLE failed_logins ADD COLUMN refused BIGINT NOT NULL DEFAULT 0;

CREATE INDEX failed_logins_of ON failed_logins (name, address);
