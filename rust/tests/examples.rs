//! The examples, run: a station over noise and bursts, a host with a station's replies.
#[path = "../examples/host.rs"]
mod host;
#[path = "../examples/station.rs"]
mod station;

use std::sync::mpsc::channel;
use std::time::Duration;

const ASK: &str = "%01#RDD001050010757\r";
const REPLY: &str = "%01$RD3412FFFF000012\r";

/// What a station says to bursts that follow each other at once.
fn says(name: &str, bursts: &[&[u8]]) -> Vec<u8> {
    let form = station::form(name, 9_600).unwrap();
    let (to, from) = channel();
    for burst in bursts {
        to.send(burst.to_vec()).unwrap();
    }
    drop(to);
    let mut line = Vec::new();
    station::serve(&form, from, &mut line).unwrap();
    line
}

#[test]
fn noise_before_a_text_costs_only_the_noise() {
    let long = "A".repeat(700);
    for noise in [
        "",
        "\0\n",
        "noise",
        "%01#RDD0010",
        "%02#RDD001050010754\r",
        &format!("%01#{long}"),
    ] {
        let line = says("mewtocol", &[format!("{noise}{ASK}").as_bytes()]);
        assert_eq!(String::from_utf8(line).unwrap(), REPLY, "{noise:?}");
    }
    let line = says(
        "ascii",
        &[b"noise\0\n:0103006", b":010300690002", b"91\r\n"],
    );
    assert_eq!(line, b":0103041234FFFFB4\r\n");
}

#[test]
fn a_burst_of_texts_is_answered_whole() {
    let line = says("mewtocol", &[format!("{ASK}{ASK}\n{ASK}\n").as_bytes()]);
    assert_eq!(String::from_utf8(line).unwrap(), REPLY.repeat(3));
}

#[test]
fn silence_parts_rtu_frames() {
    const REQUEST: [u8; 8] = [0x01, 0x03, 0x00, 0x69, 0x00, 0x02, 0x14, 0x17];
    const ANSWER: [u8; 9] = [0x01, 0x03, 0x04, 0x12, 0x34, 0xFF, 0xFF, 0xBF, 0x35];
    assert_eq!(says("rtu", &[&REQUEST[..3], &REQUEST[3..]]), ANSWER);
    assert_eq!(says("rtu", &[&REQUEST, &REQUEST]), []);
    let form = station::form("rtu", 9_600).unwrap();
    let (to, from) = channel();
    let sender = std::thread::spawn(move || {
        for burst in [&b"noise"[..], &REQUEST, &REQUEST] {
            to.send(burst.to_vec()).unwrap();
            std::thread::sleep(Duration::from_millis(100));
        }
    });
    let mut line = Vec::new();
    station::serve(&form, from, &mut line).unwrap();
    sender.join().unwrap();
    assert_eq!(line, [ANSWER, ANSWER].concat());
}

#[test]
fn a_line_has_one_record_of_counters() {
    // A wrong check, another station's frame, then 0B, 0C and 0E.
    let line = says(
        "ascii",
        &[
            b":01030069000292\r\n:02030069000290\r\n",
            b":0108000B0000EC\r\n:0108000C0000EB\r\n:0108000E0000E9\r\n",
        ],
    );
    let expected = ":0108000B0002EA\r\n:0108000C0001EA\r\n:0108000E0003E6\r\n";
    assert_eq!(String::from_utf8(line).unwrap(), expected);
}

#[test]
fn a_host_asks_and_reads() {
    let replies = b"\0noise%01$RC120\r%01$RD3412FFFF000012\r";
    let mut line = Vec::new();
    let said = host::poll(&mut &replies[..], &mut line, 105, 107).unwrap();
    assert_eq!(
        said,
        ["R1030 1", "DT00105 1234", "DT00106 FFFF", "DT00107 0000"]
    );
    assert_eq!(line, format!("%01#RCSR103015\r{ASK}").into_bytes());
}

#[test]
fn a_host_says_which_character_is_wrong() {
    let said = |replies: &[u8]| {
        let polled = host::poll(&mut &replies[..], &mut Vec::new(), 105, 107);
        polled.unwrap_err().to_string()
    };
    assert_eq!(
        said(b"%01$RC120\r%01$RD3G12FFFF000061\r"),
        "character 7 of %01$RD3G12FFFF000061\\r, 'G', is none that may stand there"
    );
    assert_eq!(
        said(b"%01$RC120\r%01$RC120\r"),
        "not a reply to this request: %01$RC120\\r"
    );
    assert_eq!(said(b"%01$RC121\r"), "the frame's check is wrong (11)");
}
