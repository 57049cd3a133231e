//! A MEWTOCOL host over standard input and output: asks station 1 for contact R1030 and for words, and says on standard error what came.
//!
//!     cargo run --example host -- FIRST LAST
//!
//! With the example station: socat EXEC:"target/debug/examples/host 105 107" EXEC:"target/debug/examples/station mewtocol"
use jeulgopae::{Ask, Contact, Form, Reply, Unread, REQUEST_ROOM};
use std::error::Error;
use std::io::{self, BufRead, Write};

const STATION: u32 = 1;

/// Sends a request and hands its reply's bytes back, from the `%` up to CR.
fn exchange(
    line_in: &mut impl BufRead,
    line_out: &mut impl Write,
    ask: Ask,
) -> Result<Vec<u8>, Box<dyn Error>> {
    let mut room = [0; REQUEST_ROOM];
    let n = ask.write(STATION, Form::Ordinary, &mut room)?;
    line_out.write_all(&room[..n])?;
    line_out.flush()?;
    let mut came = Vec::new();
    line_in.read_until(b'\r', &mut came)?;
    let start = came.iter().rposition(|&byte| byte == b'%');
    Ok(came.split_off(start.ok_or("no reply came")?))
}

/// Reads a reply. Where one character of it is wrong, it says which.
fn read<'a>(ask: Ask, frame: &'a [u8]) -> Result<Reply<'a>, Box<dyn Error>> {
    ask.read(STATION, Form::Ordinary, frame).map_err(|unread| match unread {
        Unread::NotThis { place } => match frame.get(place) {
            Some(&wrong) => format!(
                "character {place} of {}, {:?}, is none that may stand there",
                frame.escape_ascii(),
                char::from(wrong)
            )
            .into(),
            None => format!("not a reply to this request: {}", frame.escape_ascii()).into(),
        },
        Unread::Refused(refusal) => refusal.into(),
    })
}

/// Asks for a contact and for words; a line for each.
pub fn poll(
    line_in: &mut impl BufRead,
    line_out: &mut impl Write,
    first: u32,
    last: u32,
) -> Result<Vec<String>, Box<dyn Error>> {
    let contact: Contact = "R1030".parse()?;
    let mut lines = Vec::new();
    let ask = Ask::ReadContacts(std::slice::from_ref(&contact));
    match read(ask, &exchange(line_in, line_out, ask)?)? {
        Reply::Data(data) => lines.extend(
            data.contacts()
                .map(|on| format!("{contact} {}", u8::from(on))),
        ),
        Reply::Error(error) => lines.push(format!("{contact}: error {error:02X}")),
        _ => {}
    }
    let ask = Ask::ReadWords(first, last);
    match read(ask, &exchange(line_in, line_out, ask)?)? {
        Reply::Data(data) => lines.extend(
            (first..)
                .zip(data.words())
                .map(|(k, word)| format!("DT{k:05} {word:04X}")),
        ),
        Reply::Error(error) => lines.push(format!("DT{first:05}: error {error:02X}")),
        _ => {}
    }
    Ok(lines)
}

#[allow(dead_code)] // The tests use what stands above it.
fn main() -> Result<(), Box<dyn Error>> {
    let mut numbers = std::env::args().skip(1).map(|text| text.parse::<u32>());
    let (Some(first), Some(last)) = (numbers.next().transpose()?, numbers.next().transpose()?)
    else {
        return Err("usage: host FIRST LAST".into());
    };
    for line in poll(
        &mut io::stdin().lock(),
        &mut io::stdout().lock(),
        first,
        last,
    )? {
        eprintln!("{line}");
    }
    Ok(())
}
