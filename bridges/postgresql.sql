CREATE TABLE IF NOT EXISTS journal (
    journal text PRIMARY KEY,
    generation integer NOT NULL UNIQUE,
    begun timestamptz NOT NULL DEFAULT now()
);
CREATE TABLE IF NOT EXISTS entry (
    journal text NOT NULL REFERENCES journal ON UPDATE CASCADE,
    entry bigint NOT NULL,
    minute timestamptz NOT NULL,
    session smallint NOT NULL,
    role text NOT NULL,
    command text NOT NULL,
    flight numeric(20),
    refused smallint,
    line jsonb NOT NULL,
    PRIMARY KEY (journal, entry)
);
CREATE TABLE IF NOT EXISTS flight (
    journal text NOT NULL,
    flight numeric(20) NOT NULL,
    callsign text, scheduled_type text, plan_type text, scheduled_reg text, plan_reg text, scheduled_dest text, plan_dest text,
    sobt timestamptz, eobt timestamptz, ctot timestamptz, otot timestamptz, eldt timestamptz, aldt timestamptz, aibt timestamptz,
    acgt timestamptz, tobt timestamptz, tsat timestamptz, asbt timestamptz, ardt timestamptz, asrt timestamptz, asat timestamptz,
    aobt timestamptz, atot timestamptz, eczt timestamptz, eezt timestamptz, aczt timestamptz, aezt timestamptz,
    mttt smallint, exit smallint, exot smallint, stand integer,
    reached smallint[] NOT NULL, alerts text[] NOT NULL,
    entry bigint NOT NULL,
    PRIMARY KEY (journal, flight),
    FOREIGN KEY (journal, entry) REFERENCES entry ON UPDATE CASCADE
);
CREATE TABLE IF NOT EXISTS alert (
    journal text NOT NULL,
    flight numeric(20) NOT NULL,
    name text NOT NULL,
    since timestamptz NOT NULL,
    until timestamptz,
    FOREIGN KEY (journal, flight) REFERENCES flight ON UPDATE CASCADE
);
CREATE INDEX IF NOT EXISTS alert_of ON alert (journal, flight, name);
-- Queries
-- punctuality: how far off-block was from the target, by destination
SELECT coalesce(nullif(plan_dest, ''), scheduled_dest) AS dest, count(*) AS flights,
       percentile_cont(0.5) WITHIN GROUP (ORDER BY extract(epoch FROM aobt - tobt) / 60) AS median_minutes,
       avg((abs(extract(epoch FROM aobt - tobt)) <= 300)::int) AS within_5_minutes
  FROM flight WHERE aobt IS NOT NULL AND tobt IS NOT NULL GROUP BY 1 ORDER BY 1;
-- how long each alert stood
SELECT name, count(*), avg(until - since) FROM alert WHERE until IS NOT NULL GROUP BY name ORDER BY name;
-- the flights of the board as it is now, which has the journal that was begun last
SELECT flight, callsign, tobt, tsat, alerts
  FROM flight JOIN (SELECT journal FROM journal ORDER BY generation DESC LIMIT 1) AS latest USING (journal) ORDER BY tobt;
