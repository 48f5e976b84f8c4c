//! A plain server, to measure beside `acdm serve`: a thread for each partner, the board behind one lock, and a reply that is
//! flushed once no whole line is held any more.

use crate::board::Board;
use crate::Twin;
use std::io::{self, BufRead, BufReader, BufWriter, Write};
use std::net::{TcpListener, TcpStream};
use std::sync::Mutex;
use std::thread;
use std::time::{SystemTime, UNIX_EPOCH};

const HELD: usize = 65_536;

/// Accepts one partner of each of these roles, in order, and serves all until they are gone.
pub fn serve(capacity: usize, roles: &[String]) -> io::Result<()> {
    let twin = Mutex::new(Twin { board: Board::default(), journal: Vec::new(), capacity });
    let mut listeners = Vec::new();
    for (place, role) in roles.iter().enumerate() {
        let listener = TcpListener::bind("127.0.0.1:0")?;
        println!("listen {} {role} {}", place + 1, listener.local_addr()?);
        listeners.push(listener);
    }
    let mut streams = Vec::new();
    for listener in &listeners {
        streams.push(listener.accept()?.0);
    }
    thread::scope(|scope| {
        for (place, (stream, role)) in streams.into_iter().zip(roles).enumerate() {
            let twin = &twin;
            scope.spawn(move || session(twin, place + 1, role, stream));
        }
    });
    println!("closed {}", twin.lock().expect("a board").journal.len());
    Ok(())
}

fn session(twin: &Mutex<Twin>, number: usize, role: &str, stream: TcpStream) -> io::Result<()> {
    stream.set_nodelay(true)?;
    let mut writer = BufWriter::with_capacity(HELD, stream.try_clone()?);
    let mut reader = BufReader::with_capacity(HELD, stream);
    let (mut line, mut reply) = (Vec::new(), Vec::new());
    loop {
        let now = SystemTime::now().duration_since(UNIX_EPOCH).expect("a time").as_secs() / 60;
        line.clear();
        write!(line, "{number} {now} {role} ")?;
        if reader.read_until(b'\n', &mut line)? == 0 {
            return Ok(());
        }
        let text = line.strip_suffix(b"\n").unwrap_or(&line);
        reply.clear();
        twin.lock().expect("a board").answer(text, &mut reply);
        reply.push(b'\n');
        writer.write_all(&reply)?;
        if !reader.buffer().contains(&b'\n') {
            writer.flush()?;
        }
    }
}
