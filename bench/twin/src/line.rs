//! What a line asks for, or the number of its first fault, in the order of docs/RULES.md.

use crate::board::{Command, Deice, Report, Role, Schedule};
use crate::record::{Craft, ACZT, AEZT, ECZT, EEZT};
use serde_json::{Map, Value};

const LONGEST: usize = 70_000;
const MOST_MINUTES: u64 = u32::MAX as u64;
const LAST_INSTANT: i64 = 4_223_370_120;

type Fields = Map<String, Value>;

pub struct Line {
    pub session: u8,
    pub role: Role,
    pub moment: u32,
    pub command: Command,
}

pub fn read(line: &[u8]) -> Result<Line, u16> {
    if line.len() > LONGEST {
        return Err(105);
    }
    let mut words = line.splitn(4, |byte| *byte == b' ');
    let mut word = || words.next().ok_or(100u16);
    let (session, moment, role, json) = (word()?, word()?, word()?, word()?);
    let session = decimal(session, 64)? as u8;
    let moment = decimal(moment, MOST_MINUTES)? as u32;
    let role = match role {
        b"NM" => Role::Nm,
        b"ATC" => Role::Atc,
        b"APT" => Role::Apt,
        b"AO" => Role::Ao,
        b"GH" => Role::Gh,
        b"DIC" => Role::Dic,
        _ => return Err(100),
    };
    let value: Value = serde_json::from_slice(json).map_err(|_| 101u16)?;
    let fields = value.as_object().ok_or(102u16)?;
    let command = match fields.get("cmd").and_then(Value::as_str) {
        Some("schedule") => schedule(fields)?,
        Some("report") => report(fields)?,
        Some("deice") => deice(fields)?,
        Some("migrate") => Command::Migrate,
        Some("tick") => Command::Tick,
        Some("show") => Command::Show(number(fields, "flight", 1, u64::MAX)?),
        Some("alerts") => Command::Alerts,
        _ => return Err(102),
    };
    Ok(Line { session, role, moment, command })
}

fn decimal(word: &[u8], most: u64) -> Result<u64, u16> {
    let is_number = !word.is_empty() && word[0] != b'0' && word.iter().all(u8::is_ascii_digit);
    let text = std::str::from_utf8(word).map_err(|_| 100u16)?;
    match text.parse() {
        Ok(number) if is_number && number <= most => Ok(number),
        _ => Err(100),
    }
}

fn number(fields: &Fields, key: &str, least: u64, most: u64) -> Result<u64, u16> {
    match fields.get(key).and_then(Value::as_u64) {
        None => Err(103),
        Some(number) if (least..=most).contains(&number) => Ok(number),
        Some(_) => Err(104),
    }
}

fn text<const N: usize>(fields: &Fields, key: &str) -> Result<[u8; N], u16> {
    let given = fields.get(key).and_then(Value::as_str).ok_or(103u16)?.as_bytes();
    if given.is_empty() || given.len() > N || !given.iter().all(u8::is_ascii_graphic) {
        return Err(104);
    }
    let mut bytes = [0; N];
    bytes[..given.len()].copy_from_slice(given);
    Ok(bytes)
}

fn time(fields: &Fields, key: &str, is_optional: bool) -> Result<u32, u16> {
    match fields.get(key) {
        Some(Value::Null) if is_optional => Ok(0),
        Some(Value::String(instant)) => minute(instant.as_bytes()).ok_or(104),
        _ => Err(103),
    }
}

fn names(fields: &Fields) -> Result<([u8; 8], Craft), u16> {
    let callsign = text(fields, "callsign")?;
    let kind = text(fields, "type")?;
    let registration = text(fields, "reg")?;
    let destination = text(fields, "dest")?;
    Ok((callsign, Craft { kind, registration, destination }))
}

fn schedule(fields: &Fields) -> Result<Command, u16> {
    let flight = number(fields, "flight", 1, u64::MAX)?;
    let (callsign, craft) = names(fields)?;
    let sobt = time(fields, "sobt", false)?;
    let mttt = number(fields, "mttt", 0, 1440)? as u16;
    let exit = number(fields, "exit", 0, 255)? as u8;
    let exot = number(fields, "exot", 0, 1440)? as u16;
    let stand = number(fields, "stand", 0, 65535)? as u16;
    Ok(Command::Schedule(Schedule { flight, callsign, craft, sobt, mttt, exit, exot, stand }))
}

fn report(fields: &Fields) -> Result<Command, u16> {
    let flight = number(fields, "flight", 1, u64::MAX)?;
    let milestone = number(fields, "milestone", 1, 16)? as u8;
    let time = time(fields, "time", matches!(milestone, 2 | 9))?;
    let plan = if milestone == 1 { Some(names(fields)?) } else { None };
    Ok(Command::Report(Report { flight, milestone, time, plan }))
}

fn deice(fields: &Fields) -> Result<Command, u16> {
    let flight = number(fields, "flight", 1, u64::MAX)?;
    let place = match fields.get("field").and_then(Value::as_str).ok_or(103u16)? {
        "eczt" => ECZT,
        "eezt" => EEZT,
        "aczt" => ACZT,
        "aezt" => AEZT,
        _ => return Err(104),
    };
    let time = time(fields, "time", true)?;
    Ok(Command::Deice(Deice { flight, place, time }))
}

/// The minute of an instant as `2025-02-20T10:00:00Z`, with a fraction of a second or an offset as `+01:00`.
fn minute(instant: &[u8]) -> Option<u32> {
    let digits = |from: usize, to: usize| {
        let part = instant.get(from..to)?;
        part.iter().all(u8::is_ascii_digit).then(|| part.iter().fold(0, |sum, digit| sum * 10 + i64::from(digit - b'0')))
    };
    let marks = [(4, b'-'), (7, b'-'), (10, b'T'), (13, b':'), (16, b':')];
    if marks.iter().any(|(at, mark)| instant.get(*at) != Some(mark)) {
        return None;
    }
    let (year, month, day) = (digits(0, 4)?, digits(5, 7)?, digits(8, 10)?);
    let (hour, minute, second) = (digits(11, 13)?, digits(14, 16)?, digits(17, 19)?);
    let is_leap = year % 4 == 0 && (year % 100 != 0 || year % 400 == 0);
    let last = match month {
        2 => 28 + i64::from(is_leap),
        4 | 6 | 9 | 11 => 30,
        _ => 31,
    };
    if !(1..=12).contains(&month) || !(1..=last).contains(&day) || hour > 23 || minute > 59 || second > 60 {
        return None;
    }
    let mut rest = &instant[19..];
    if let [b'.', fraction @ ..] = rest {
        let length = fraction.iter().take_while(|byte| byte.is_ascii_digit()).count();
        if !(1..=9).contains(&length) {
            return None;
        }
        rest = &fraction[length..];
    }
    let at = instant.len() - rest.len();
    let offset = match rest {
        [b'Z'] => 0,
        [sign @ (b'+' | b'-'), _, _, b':', _, _] => {
            let (hours, minutes) = (digits(at + 1, at + 3)?, digits(at + 4, at + 6)?);
            if hours > 25 || minutes > 59 {
                return None;
            }
            (if *sign == b'+' { -1 } else { 1 }) * (60 * hours + minutes)
        }
        _ => return None,
    };
    let total = (days(year, month, day) * 24 + hour) * 60 + minute + offset;
    (1..=LAST_INSTANT).contains(&total).then_some(total as u32)
}

/// Days from 1970-01-01 to a day of the Gregorian calendar, of which March is the first month.
fn days(year: i64, month: i64, day: i64) -> i64 {
    let (year, month) = if month > 2 { (year, month - 3) } else { (year - 1, month + 9) };
    let leaps = year.div_euclid(4) - year.div_euclid(100) + year.div_euclid(400);
    year * 365 + leaps + (153 * month + 2) / 5 + day - 719_469
}
