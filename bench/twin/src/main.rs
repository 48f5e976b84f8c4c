//! An unverified twin of `acdm run`, to measure beside it: `twin [ENTRIES] < lines > replies`. It has all commands but `load` and
//! `unload`, which it does not know. `twin serve ENTRIES ROLE ..` is a twin of `acdm serve` (`server`).

mod board;
mod line;
mod record;
mod server;

use board::{Board, Entry, Outcome};
use std::io::{self, BufRead, Write};

struct Twin {
    board: Board,
    journal: Vec<Entry>,
    capacity: usize,
}

fn number(reply: &mut Vec<u8>, word: &[u8], number: usize) {
    reply.extend_from_slice(word);
    reply.extend_from_slice(itoa::Buffer::new().format(number).as_bytes());
}

fn hexadecimal(reply: &mut Vec<u8>, bytes: &[u8]) {
    const DIGITS: &[u8; 16] = b"0123456789abcdef";
    for byte in bytes {
        reply.push(DIGITS[usize::from(byte >> 4)]);
        reply.push(DIGITS[usize::from(byte & 15)]);
    }
}

fn list(reply: &mut Vec<u8>, board: &Board) {
    let before = reply.len();
    for record in board.flights.values().filter(|record| record.alerts != 0) {
        if reply.len() > before {
            reply.push(b';');
        }
        record.write_alerts(reply);
    }
    if reply.len() == before {
        reply.push(b'-');
    }
}

impl Twin {
    fn answer(&mut self, text: &[u8], reply: &mut Vec<u8>) {
        let line = match line::read(text) {
            Ok(_) if self.journal.len() == self.capacity => return number(reply, b"bad ", 502),
            Ok(line) => line,
            Err(code) => return number(reply, b"bad ", code.into()),
        };
        let place = self.journal.len();
        let mut refusal = 0;
        match self.board.apply(line.role, line.moment, &line.command) {
            Outcome::Done => number(reply, b"ok ", place),
            Outcome::Shown(record, layout) => {
                number(reply, b"rec ", place);
                reply.push(b' ');
                hexadecimal(reply, &record.bytes(layout)[..if layout == 2 { 160 } else { 128 }]);
            }
            Outcome::Migrated => {
                number(reply, b"migrated ", place);
                reply.extend_from_slice(b" -");
            }
            Outcome::Listed => {
                number(reply, b"alerts ", place);
                reply.push(b' ');
                list(reply, &self.board);
            }
            Outcome::Refused(code) => {
                number(reply, b"no ", place);
                number(reply, b" ", code.into());
                refusal = code;
            }
        }
        let (session, role, moment) = (line.session, line.role, line.moment);
        self.journal.push(Entry { session, role, moment, refusal, command: line.command });
    }
}

fn main() -> io::Result<()> {
    let words: Vec<String> = std::env::args().collect();
    if let [_, command, entries, roles @ ..] = words.as_slice() {
        if command == "serve" {
            return server::serve(entries.parse().expect("a number"), roles);
        }
    }
    let capacity = std::env::args().nth(1).map_or(100_000, |word| word.parse().expect("a number"));
    let mut twin = Twin { board: Board::default(), journal: Vec::new(), capacity };
    let mut input = io::BufReader::with_capacity(65_536, io::stdin().lock());
    let mut output = io::stdout().lock();
    let (mut line, mut reply) = (Vec::new(), Vec::new());
    while input.read_until(b'\n', &mut line)? > 0 {
        let text = line.strip_suffix(b"\n").unwrap_or(&line);
        twin.answer(text, &mut reply);
        reply.push(b'\n');
        output.write_all(&reply)?;
        output.flush()?;
        line.clear();
        reply.clear();
    }
    Ok(())
}
