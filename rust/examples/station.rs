//! A station over standard input and output: frames come in at the one, replies go out at the other.
//!
//!     cargo run --example station -- rtu|ascii|mewtocol [BAUD]
//!
//! On a serial device, with socat between (BAUD is only wanted for the gap between RTU frames):
//!
//!     socat /dev/ttyUSB0,b9600,raw,echo=0 EXEC:"target/debug/examples/station mewtocol"
//!
//! The library is given one whole frame a call. What begins and ends a frame is the program's part: in a text its opening and closing
//! character, whatever stands before the one; in RTU silence.
use jeulgopae::{Attribute, Counters, Profile, Refusal, Station, STATION_ROOM};
use std::io::{self, Read, Write};
use std::sync::mpsc::{channel, Receiver, RecvTimeoutError};
use std::time::Duration;

const OWN: u32 = 1;
const WORDS: usize = 200;

#[derive(Clone, Copy)]
enum Protocol {
    Mewtocol,
    Ascii,
    Rtu,
}

/// What parts frames, and how long the longest is.
pub struct Form {
    protocol: Protocol,
    openings: &'static [u8],
    closing: Option<u8>,
    longest: usize,
    gap: Duration,
}

/// The form of a protocol by its name. RTU: three and a half characters of eleven bits, 1.75 ms above 19,200 baud. Texts: a second.
pub fn form(name: &str, baud: u64) -> Option<Form> {
    let second = Duration::from_secs(1);
    let (protocol, openings, closing, longest, gap) = match name {
        "mewtocol" => (Protocol::Mewtocol, b"%<".as_slice(), Some(b'\r'), 2048, second),
        "ascii" => (Protocol::Ascii, b":".as_slice(), Some(b'\n'), 513, second),
        "rtu" if baud > 19_200 => (Protocol::Rtu, b"".as_slice(), None, 256, Duration::from_micros(1_750)),
        "rtu" if baud > 0 => {
            let gap = Duration::from_micros(38_500_000 / baud);
            (Protocol::Rtu, b"".as_slice(), None, 256, gap)
        }
        _ => return None,
    };
    Some(Form {
        protocol,
        openings,
        closing,
        longest,
        gap,
    })
}

/// The table, the line's counters, and the bytes of the frame that has begun.
struct Bench<W> {
    words: [u16; WORDS],
    attributes: [Attribute; WORDS],
    counters: Counters,
    frame: Vec<u8>,
    line: W,
}

impl<W: Write> Bench<W> {
    /// Answers the frame that has ended, and begins another.
    fn answer(&mut self, form: &Form) -> io::Result<()> {
        let mut room = [0; STATION_ROOM];
        let station = match form.protocol {
            Protocol::Mewtocol => Station::Mewtocol,
            Protocol::Ascii => Station::Ascii(&mut self.counters),
            Protocol::Rtu => Station::Rtu(&mut self.counters),
        };
        let answer = station
            .answer(
                &mut self.words,
                &self.attributes,
                Profile::None,
                OWN,
                &self.frame,
                &mut room,
            )
            .map_err(io::Error::other)?;
        self.frame.clear();
        if let Some(reply) = answer.reply() {
            self.line.write_all(reply)?;
            self.line.flush()?;
        }
        Ok(())
    }

    fn take(&mut self, form: &Form, byte: u8) -> io::Result<()> {
        if form.openings.contains(&byte)
            || (!form.openings.is_empty() && self.frame.len() == form.longest)
        {
            self.frame.clear();
        }
        if self.frame.is_empty() && !form.openings.is_empty() && !form.openings.contains(&byte) {
            return Ok(());
        }
        // One byte more than the longest frame is kept, so that the library sees a frame that is too long.
        if self.frame.len() <= form.longest {
            self.frame.push(byte);
        }
        if form.closing == Some(byte) {
            self.answer(form)?;
        }
        Ok(())
    }

    fn silence(&mut self, form: &Form) -> io::Result<()> {
        if form.openings.is_empty() && !self.frame.is_empty() {
            return self.answer(form);
        }
        self.frame.clear();
        Ok(())
    }
}

/// Answers what comes in until nothing can come any more.
pub fn serve(form: &Form, bursts: Receiver<Vec<u8>>, line: impl Write) -> io::Result<()> {
    let mut bench = Bench {
        words: [0; WORDS],
        attributes: [Attribute::READ_WRITE; WORDS],
        counters: Counters::default(),
        frame: Vec::new(),
        line,
    };
    bench.words[105] = 0x1234;
    bench.words[106] = 0xFFFF;
    loop {
        match bursts.recv_timeout(form.gap) {
            Ok(burst) => burst
                .into_iter()
                .try_for_each(|byte| bench.take(form, byte))?,
            Err(RecvTimeoutError::Timeout) => bench.silence(form)?,
            Err(RecvTimeoutError::Disconnected) => return bench.silence(form),
        }
    }
}

/// What the standard input brings, in the heaps that it brings it in.
fn bursts() -> Receiver<Vec<u8>> {
    let (to, from) = channel();
    std::thread::spawn(move || {
        let mut room = [0; 256];
        while let Ok(n @ 1..) = io::stdin().lock().read(&mut room) {
            if to.send(room[..n].to_vec()).is_err() {
                break;
            }
        }
    });
    from
}

#[allow(dead_code)] // The tests use what stands above it.
fn main() -> Result<(), Box<dyn std::error::Error>> {
    let mut arguments = std::env::args().skip(1);
    let name = arguments.next().unwrap_or_default();
    let baud = arguments.next().map_or(Ok(9_600), |text| text.parse())?;
    let form = form(&name, baud).ok_or("usage: station rtu|ascii|mewtocol [BAUD]")?;
    match serve(&form, bursts(), io::stdout().lock()) {
        Err(error) if error.get_ref().is_some_and(|e| e.is::<Refusal>()) => {
            Err("the table or the station can't be".into())
        }
        other => Ok(other?),
    }
}
