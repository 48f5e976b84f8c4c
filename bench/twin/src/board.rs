//! The board: flights in order of creation, and what a command does to them.

use crate::record::*;
use indexmap::IndexMap;

const MOST_FLIGHTS: usize = 4096;

#[derive(Clone, Copy, PartialEq)]
pub enum Role {
    Nm,
    Atc,
    Apt,
    Ao,
    Gh,
    Dic,
}

use Role::*;

pub struct Schedule {
    pub flight: u64,
    pub callsign: [u8; 8],
    pub craft: Craft,
    pub sobt: u32,
    pub mttt: u16,
    pub exit: u8,
    pub exot: u16,
    pub stand: u16,
}

pub struct Report {
    pub flight: u64,
    pub milestone: u8,
    pub time: u32,
    pub plan: Option<([u8; 8], Craft)>,
}

/// A time of de-icing by its place among the times.
pub struct Deice {
    pub flight: u64,
    pub place: usize,
    pub time: u32,
}

pub enum Command {
    Schedule(Schedule),
    Report(Report),
    Deice(Deice),
    Migrate,
    Tick,
    Show(u64),
    Alerts,
}

/// What the journal keeps of a command: 0 in `refusal` where it was accepted.
#[allow(dead_code)]
pub struct Entry {
    pub session: u8,
    pub role: Role,
    pub moment: u32,
    pub refusal: u16,
    pub command: Command,
}

/// What comes of a command.
pub enum Outcome<'a> {
    Done,
    Shown(&'a Record, u8),
    Migrated,
    Listed,
    Refused(u16),
}

/// A milestone: who reports it, what it sets, what must be reached and set, what bars it.
struct Rule {
    owners: &'static [Role],
    sets: usize,
    reached: u32,
    needs: Option<usize>,
    barred: u32,
}

const fn rule(owners: &'static [Role], sets: usize, reached: u32, barred: u32) -> Rule {
    Rule { owners, sets, reached, needs: None, barred: 1 << barred }
}

const fn needing(owners: &'static [Role], sets: usize, reached: u32, needs: usize, barred: u32) -> Rule {
    Rule { owners, sets, reached, needs: Some(needs), barred: 1 << barred }
}

const PLANNED: u32 = 1 << 1;
const ISSUED: u32 = PLANNED | 1 << 10;

const RULES: [Rule; 16] = [
    rule(&[Nm], EOBT, 0, 15),
    rule(&[Nm], CTOT, PLANNED, 16),
    rule(&[Nm], OTOT, PLANNED, 6),
    rule(&[Atc], ELDT, PLANNED, 6),
    rule(&[Atc], ELDT, PLANNED, 6),
    rule(&[Atc], ALDT, PLANNED, 7),
    rule(&[Apt], AIBT, PLANNED | 1 << 6, 15),
    rule(&[Gh], ACGT, PLANNED | 1 << 7, 15),
    rule(&[Ao, Gh], TOBT, PLANNED, 14),
    needing(&[Atc], TSAT, PLANNED, TOBT, 15),
    needing(&[Ao, Gh], ASBT, PLANNED, TOBT, 15),
    needing(&[Ao, Gh], ARDT, PLANNED, TOBT, 15),
    needing(&[Atc], ASRT, ISSUED, TSAT, 15),
    needing(&[Atc], ASAT, ISSUED | 1 << 13, TSAT, 15),
    rule(&[Apt, Atc], AOBT, PLANNED | 1 << 14, 16),
    rule(&[Atc], ATOT, PLANNED | 1 << 15, 16),
];

const IN_ORDER: [(usize, usize); 4] = [(ALDT, AIBT), (AIBT, ACGT), (ASRT, ASAT), (AOBT, ATOT)];

const DEICED_IN_ORDER: [(usize, usize); 2] = [(ECZT, EEZT), (ACZT, AEZT)];

#[derive(Default)]
pub struct Board {
    pub flights: IndexMap<u64, Record>,
    pub is_migrated: bool,
}

impl Board {
    pub fn apply(&mut self, role: Role, moment: u32, command: &Command) -> Outcome<'_> {
        match command {
            Command::Schedule(schedule) => self.schedule(role, moment, schedule),
            Command::Report(report) => self.report(role, moment, report),
            Command::Deice(deice) => self.deice(role, moment, deice),
            Command::Migrate if role != Apt => Outcome::Refused(201),
            Command::Migrate if self.is_migrated => Outcome::Refused(324),
            Command::Migrate => {
                self.is_migrated = true;
                Outcome::Migrated
            }
            Command::Tick => {
                if role != Apt {
                    return Outcome::Refused(201);
                }
                self.flights.values_mut().for_each(|record| record.touch(moment));
                Outcome::Done
            }
            Command::Show(flight) => match self.flights.get(flight) {
                Some(record) => Outcome::Shown(record, 1 + u8::from(self.is_migrated)),
                None => Outcome::Refused(202),
            },
            Command::Alerts => Outcome::Listed,
        }
    }

    fn is_full(&self) -> bool {
        self.flights.len() == MOST_FLIGHTS
    }

    fn schedule(&mut self, role: Role, moment: u32, given: &Schedule) -> Outcome<'static> {
        if role != Apt {
            return Outcome::Refused(201);
        }
        let is_full = self.is_full();
        let entry = self.flights.entry(given.flight);
        if let indexmap::map::Entry::Occupied(found) = &entry {
            if found.get().has(3) {
                return Outcome::Refused(207);
            }
        } else if is_full {
            return Outcome::Refused(503);
        }
        let record = entry.or_insert_with(|| Record { flight: given.flight, ..Record::default() });
        record.callsign = given.callsign;
        record.scheduled = given.craft;
        record.times[SOBT] = given.sobt;
        record.mttt = given.mttt;
        record.exit = given.exit;
        record.exot = given.exot;
        record.stand = given.stand;
        record.reached |= 1;
        record.touch(moment);
        Outcome::Done
    }

    fn deice(&mut self, role: Role, moment: u32, given: &Deice) -> Outcome<'static> {
        if role != Dic {
            return Outcome::Refused(201);
        }
        if !self.is_migrated {
            return Outcome::Refused(325);
        }
        let Some(record) = self.flights.get_mut(&given.flight) else {
            return Outcome::Refused(202);
        };
        if !record.has(PLANNED) {
            return Outcome::Refused(203);
        }
        if record.has(1 << 16) {
            return Outcome::Refused(204);
        }
        let mut times = record.times;
        times[given.place] = given.time;
        if DEICED_IN_ORDER.iter().any(|(first, then)| times[*then] != 0 && times[*then] < times[*first]) {
            return Outcome::Refused(206);
        }
        record.times = times;
        record.touch(moment);
        Outcome::Done
    }

    fn report(&mut self, role: Role, moment: u32, given: &Report) -> Outcome<'static> {
        let rule = &RULES[usize::from(given.milestone) - 1];
        if !rule.owners.contains(&role) {
            return Outcome::Refused(201);
        }
        let place = self.flights.get_index_of(&given.flight);
        let mut record = match place {
            Some(place) => self.flights[place],
            None if given.milestone != 1 => return Outcome::Refused(202),
            None if self.is_full() => return Outcome::Refused(503),
            None => Record { flight: given.flight, ..Record::default() },
        };
        let mut times = record.times;
        times[rule.sets] = given.time;
        if given.milestone == 9 && given.time == 0 {
            times[TSAT] = 0;
        }
        if !record.has(rule.reached) {
            return Outcome::Refused(203);
        }
        if record.has(rule.barred) {
            return Outcome::Refused(204);
        }
        if rule.needs.map_or(false, |place| record.times[place] == 0) {
            return Outcome::Refused(205);
        }
        if IN_ORDER.iter().any(|(first, then)| times[*then] != 0 && times[*then] < times[*first]) {
            return Outcome::Refused(206);
        }
        record.times = times;
        if let Some((callsign, craft)) = given.plan {
            record.callsign = callsign;
            record.planned = craft;
        }
        record.reached |= 1 << given.milestone;
        record.touch(moment);
        match place {
            Some(place) => self.flights[place] = record,
            None => drop(self.flights.insert(given.flight, record)),
        }
        Outcome::Done
    }
}
