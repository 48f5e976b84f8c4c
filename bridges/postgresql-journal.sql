-- Once, for tables that to_postgresql.py made before version 0.10.0: each row gets the journal that it is of, as a part
-- of its key. The name is empty until the bridge is told it.
DO $$ BEGIN
    CREATE TABLE journal (
        journal text PRIMARY KEY,
        generation integer NOT NULL UNIQUE,
        begun timestamptz NOT NULL DEFAULT now()
    );
    INSERT INTO journal (journal, generation) VALUES ('', 0);
    ALTER TABLE alert DROP CONSTRAINT alert_flight_fkey, ADD COLUMN journal text NOT NULL DEFAULT '';
    ALTER TABLE flight DROP CONSTRAINT flight_entry_fkey, DROP CONSTRAINT flight_pkey,
        ADD COLUMN journal text NOT NULL DEFAULT '', ADD PRIMARY KEY (journal, flight);
    ALTER TABLE entry DROP CONSTRAINT entry_pkey, ADD COLUMN journal text NOT NULL DEFAULT '',
        ADD PRIMARY KEY (journal, entry), ADD FOREIGN KEY (journal) REFERENCES journal ON UPDATE CASCADE;
    ALTER TABLE flight ADD FOREIGN KEY (journal, entry) REFERENCES entry ON UPDATE CASCADE;
    ALTER TABLE alert ADD FOREIGN KEY (journal, flight) REFERENCES flight ON UPDATE CASCADE;
    ALTER TABLE entry ALTER COLUMN journal DROP DEFAULT;
    ALTER TABLE flight ALTER COLUMN journal DROP DEFAULT;
    ALTER TABLE alert ALTER COLUMN journal DROP DEFAULT;
    DROP INDEX alert_of;
    CREATE INDEX alert_of ON alert (journal, flight, name);
END $$;
