//! The record of a flight, and the alerts that it raises.

pub const SOBT: usize = 0;
pub const EOBT: usize = 1;
pub const CTOT: usize = 2;
pub const OTOT: usize = 3;
pub const ELDT: usize = 4;
pub const ALDT: usize = 5;
pub const AIBT: usize = 6;
pub const ACGT: usize = 7;
pub const TOBT: usize = 8;
pub const TSAT: usize = 9;
pub const ASBT: usize = 10;
pub const ARDT: usize = 11;
pub const ASRT: usize = 12;
pub const ASAT: usize = 13;
pub const AOBT: usize = 14;
pub const ATOT: usize = 15;
pub const ECZT: usize = 16;
pub const EEZT: usize = 17;
pub const ACZT: usize = 18;
pub const AEZT: usize = 19;

/// What set CDM14 and the local alerts, which a program alone changes.
const OF_PROGRAMS: u32 = 0xFFFF_4000;

const NAMES: [&str; 16] = [
    "", "CDM01", "CDM02", "CDM03", "CDM04", "CDM05", "", "CDM07", "CDM08", "CDM09", "CDM10",
    "CDM11", "CDM12", "CDM13", "CDM14", "CDM07a",
];

/// The names of an aircraft and of where it goes, filled with zeros.
#[derive(Clone, Copy, Default, PartialEq)]
pub struct Craft {
    pub kind: [u8; 4],
    pub registration: [u8; 8],
    pub destination: [u8; 4],
}

/// Times are minutes since 1970-01-01T00:00Z, 0 for none.
#[derive(Clone, Copy, Default)]
pub struct Record {
    pub flight: u64,
    pub callsign: [u8; 8],
    pub scheduled: Craft,
    pub planned: Craft,
    pub reached: u32,
    pub alerts: u32,
    pub mttt: u16,
    pub exot: u16,
    pub stand: u16,
    pub exit: u8,
    pub times: [u32; 20],
}

impl Record {
    pub fn has(&self, milestones: u32) -> bool {
        self.reached & milestones == milestones
    }

    /// The bytes of docs/FORMATS.md: those of layout 2, of which layout 1 has the first 128.
    pub fn bytes(&self, layout: u8) -> [u8; 160] {
        let mut bytes = [0; 160];
        let mut at = 0;
        let mut put = |part: &[u8]| {
            bytes[at..at + part.len()].copy_from_slice(part);
            at += part.len();
        };
        put(&self.flight.to_le_bytes());
        put(&self.callsign);
        put(&self.scheduled.kind);
        put(&self.planned.kind);
        put(&self.scheduled.registration);
        put(&self.planned.registration);
        put(&self.scheduled.destination);
        put(&self.planned.destination);
        put(&self.reached.to_le_bytes());
        put(&self.alerts.to_le_bytes());
        put(&self.mttt.to_le_bytes());
        put(&self.exot.to_le_bytes());
        put(&self.stand.to_le_bytes());
        put(&[layout, self.exit]);
        for time in self.times {
            put(&time.to_le_bytes());
        }
        bytes
    }

    /// When the turn-round is over at the earliest, where the in-block time is known or estimated.
    fn ready(&self) -> Option<u64> {
        let [eldt, aldt, aibt] = [ELDT, ALDT, AIBT].map(|place| u64::from(self.times[place]));
        let taxi = u64::from(self.exit);
        let in_block = match (aibt, aldt, eldt) {
            (0, 0, 0) => return None,
            (0, 0, estimate) => estimate + taxi,
            (0, landed, _) => landed + taxi,
            (in_block, _, _) => in_block,
        };
        Some(in_block + u64::from(self.mttt))
    }

    /// Computes the alert word at a moment.
    pub fn touch(&mut self, now: u32) {
        let now = u64::from(now);
        let time = |place: usize| u64::from(self.times[place]);
        let [sobt, eobt, tobt, tsat] = [SOBT, EOBT, TOBT, TSAT].map(time);
        let [asbt, asat, aobt] = [ASBT, ASAT, AOBT].map(time);
        let is_scheduled = self.has(1);
        let is_planned = self.has(2);
        let both = is_scheduled && is_planned;
        let ready_after = |end: u64| end != 0 && self.ready().map_or(false, |ready| ready > end);
        let conditions = [
            (1, is_planned && !is_scheduled),
            (2, sobt != 0 && eobt != 0 && sobt != eobt),
            (3, both && self.scheduled.kind != self.planned.kind),
            (4, both && self.scheduled.registration != self.planned.registration),
            (5, both && self.scheduled.destination != self.planned.destination),
            (7, ready_after(eobt)),
            (8, tobt != 0 && eobt != 0 && tobt.abs_diff(eobt) > 15),
            (9, tobt != 0 && asbt == 0 && aobt == 0 && now + 10 >= tobt),
            (10, self.has(1 << 9) && tobt == 0),
            (11, tsat != 0 && asat == 0 && now > tsat + 5),
            (12, asat != 0 && tsat != 0 && asat.abs_diff(tsat) > 5),
            (13, is_scheduled && !is_planned && now + 180 >= sobt),
            (15, ready_after(tobt)),
        ];
        let raised = conditions.iter().map(|(bit, holds)| u32::from(*holds) << bit).sum::<u32>();
        self.alerts = raised | self.alerts & OF_PROGRAMS;
    }

    /// Appends `FLIGHT:NAME,NAME`.
    pub fn write_alerts(&self, reply: &mut Vec<u8>) {
        reply.extend_from_slice(itoa::Buffer::new().format(self.flight).as_bytes());
        let mut mark = b':';
        for (bit, name) in NAMES.iter().enumerate() {
            if self.alerts >> bit & 1 == 1 {
                reply.push(mark);
                reply.extend_from_slice(name.as_bytes());
                mark = b',';
            }
        }
    }
}
