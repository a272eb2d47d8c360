-- Why a sign is neither driven nor read: its name does not resolve, or its address is another one's.
ALTER TABLE signs ADD COLUMN still TEXT;
