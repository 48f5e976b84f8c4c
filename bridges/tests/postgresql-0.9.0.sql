-- The tables as to_postgresql.py of version 0.9.0 made them, for tests.
CREATE TABLE IF NOT EXISTS entry (
    entry bigint PRIMARY KEY,
    minute timestamptz NOT NULL,
    session smallint NOT NULL,
    role text NOT NULL,
    command text NOT NULL,
    flight numeric(20),
    refused smallint,
    line jsonb NOT NULL
);
CREATE TABLE IF NOT EXISTS flight (
    flight numeric(20) PRIMARY KEY,
    callsign text, scheduled_type text, plan_type text, scheduled_reg text, plan_reg text, scheduled_dest text, plan_dest text,
    sobt timestamptz, eobt timestamptz, ctot timestamptz, otot timestamptz, eldt timestamptz, aldt timestamptz, aibt timestamptz,
    acgt timestamptz, tobt timestamptz, tsat timestamptz, asbt timestamptz, ardt timestamptz, asrt timestamptz, asat timestamptz,
    aobt timestamptz, atot timestamptz, eczt timestamptz, eezt timestamptz, aczt timestamptz, aezt timestamptz,
    mttt smallint, exit smallint, exot smallint, stand integer,
    reached smallint[] NOT NULL, alerts text[] NOT NULL,
    entry bigint NOT NULL REFERENCES entry
);
CREATE TABLE IF NOT EXISTS alert (
    flight numeric(20) NOT NULL REFERENCES flight,
    name text NOT NULL,
    since timestamptz NOT NULL,
    until timestamptz
);
CREATE INDEX IF NOT EXISTS alert_of ON alert (flight, name);
