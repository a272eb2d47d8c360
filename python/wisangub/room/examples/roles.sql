-- The role `control` of the service, which reads and adds, and changes only what has to change: docs/CONTROL.md.
REVOKE CREATE ON SCHEMA public FROM PUBLIC;
GRANT USAGE ON SCHEMA public TO control;
GRANT SELECT, INSERT ON ALL TABLES IN SCHEMA public TO control;
ALTER DEFAULT PRIVILEGES IN SCHEMA public GRANT SELECT ON TABLES TO control;
REVOKE INSERT ON migrations FROM control;
GRANT UPDATE ON addresses, alarm_looks, alarms, device_hearings, devices, failed_logins, hearings, latest_readings,
    ledger, logins, messages, notices, plan_looks, plan_runs, plan_texts, plans, purposes, readings, rights,
    row_hearings, second_factors, signs, texts, tokens, users TO control;
GRANT UPDATE (line_number, step, outcome, ended, why) ON commands TO control;
GRANT UPDATE (number, sent_at, outcome, ended, said, said_at) ON brightness TO control;
GRANT DELETE ON approvals, brightness, failed_logins, forbidden_words, group_members, plan_runs, plan_texts, plans, purposes,
    rights, schedules, second_factors, sign_groups, texts TO control;
