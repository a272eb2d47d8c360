-- Where a log-in that failed came from: its address, or of IPv6 the /64 that one machine has to itself.
ALTER TABLE failed_logins ADD COLUMN network TEXT NOT NULL DEFAULT '';
CREATE INDEX failed_logins_network ON failed_logins (network, name);

-- When somebody was last let in by an administrator, so that for a while he waits for no address.
ALTER TABLE users ADD COLUMN unlocked DOUBLE PRECISION NOT NULL DEFAULT 0;

CREATE INDEX logins_of ON logins (name, address);
