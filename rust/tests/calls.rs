//! Every entry once with a good answer and once with each refusal that it can give.
use jeulgopae::*;

const OWN: u32 = 1;

fn table() -> ([u16; 136], [Attribute; 136]) {
    let mut words = [0u16; 136];
    words[105] = 0x1234;
    words[106] = 0xFFFF;
    (words, [Attribute::READ_WRITE; 136])
}

fn contact(name: &str) -> Contact {
    name.parse().unwrap()
}

/// The reply to a frame at station 1.
fn reply<'r>(station: Station, words: &mut [u16], frame: &[u8], room: &'r mut [u8]) -> &'r [u8] {
    let answer = station.answer(words, &table().1, Profile::None, OWN, frame, room);
    answer.unwrap().reply().unwrap()
}

#[test]
fn a_contact_is_set_and_read() {
    let mut words = table().0;
    let mut room = [0u8; STATION_ROOM];
    let said = reply(
        Station::Mewtocol,
        &mut words,
        b"%01#WCSR1030121\r",
        &mut room,
    );
    assert_eq!(said, b"%01$WC14\r");
    assert_eq!(words[133], 1);
    let said = reply(
        Station::Mewtocol,
        &mut words,
        b"%01#RCSR103015\r",
        &mut room,
    );
    assert_eq!(said, b"%01$RC120\r");
}

#[test]
fn a_wrong_check_is_error_40_and_changes_nothing() {
    let mut words = table().0;
    let before = words;
    let mut room = [0u8; STATION_ROOM];
    let said = reply(
        Station::Mewtocol,
        &mut words,
        b"%01#WCSR1030122\r",
        &mut room,
    );
    assert_eq!(said, b"%01!4001\r");
    assert_eq!(words, before);
}

#[test]
fn a_station_refuses_in_order() {
    let (mut words, attributes) = table();
    let mut room = [0u8; STATION_ROOM];
    let mut counters = Counters::default();
    let frame = [0x01, 0x03, 0x00, 0x85, 0x00, 0x01, 0x95, 0xE3];
    let mut ask = |attributes: &[Attribute], own, frame: &[u8], size| {
        Station::Rtu(&mut counters)
            .answer(
                &mut words,
                attributes,
                Profile::None,
                own,
                frame,
                &mut room[..size],
            )
            .map(|answer| match answer {
                Answer::Silence(why) => why,
                other => panic!("{other:?}"),
            })
    };
    // The caller's own mistakes.
    assert_eq!(ask(&attributes[1..], 0, &[], 0), Err(Refusal::BadTable));
    assert_eq!(ask(&attributes, 0, &[], 0), Err(Refusal::BadStation));
    assert_eq!(ask(&attributes, 257, &frame, 513), Err(Refusal::BadStation));
    assert_eq!(ask(&attributes, OWN, &[], 512), Err(Refusal::SmallRoom));
    // Silence.
    assert_eq!(ask(&attributes, OWN, &[], 513), Ok(Refusal::BadShape));
    assert_eq!(
        ask(&attributes, OWN, &frame[..7], 513),
        Ok(Refusal::BadCheck)
    );
    assert_eq!(ask(&attributes, 2, &frame, 513), Ok(Refusal::OtherStation));
    assert_eq!(room, [0u8; STATION_ROOM]);
    assert_eq!(words, table().0);
    // Only the last two count.
    assert_eq!(
        counters,
        Counters {
            bus: 1,
            damaged: 1,
            ..Counters::default()
        }
    );
}

/// An RTU frame of a body: the CRC follows it.
fn rtu(body: &[u8]) -> Vec<u8> {
    [body, &crc(body).to_le_bytes()].concat()
}

#[test]
fn a_line_is_counted() {
    let mut room = [0u8; STATION_ROOM];
    let mut line = Counters::default();
    let mut hear = |line: &mut Counters, frame: &[u8]| {
        let answer = Station::Rtu(line).answer(&mut [], &[], Profile::None, OWN, frame, &mut room);
        answer.unwrap().reply().map(<[u8]>::to_vec)
    };
    let shown = |low: u8, count: u16| {
        let [first, second] = count.to_be_bytes();
        Some(rtu(&[1, 8, 0, low, first, second]))
    };
    // A wrong check, another station's frame, an exception, a write and a clear for all.
    let mut damaged = rtu(&[1, 3, 0, 0, 0, 1]);
    damaged[7] ^= 1;
    assert_eq!(hear(&mut line, &damaged), None);
    assert_eq!(hear(&mut line, &rtu(&[2, 3, 0, 0, 0, 1])), None);
    let exception = rtu(&[1, 0x83, 2]);
    assert_eq!(hear(&mut line, &rtu(&[1, 3, 0, 0, 0, 1])), Some(exception));
    assert_eq!(hear(&mut line, &rtu(&[0, 6, 0, 0, 0, 1])), None);
    assert_eq!(hear(&mut line, &rtu(&[0, 8, 0, 10, 0, 0])), None);
    let heard = Counters {
        bus: 4,
        damaged: 1,
        exceptions: 1,
        own: 3,
        unanswered: 2,
    };
    assert_eq!(line, heard);
    for (low, count) in [(11, 5), (12, 1), (13, 1), (14, 7), (15, 2)] {
        let said = hear(&mut line, &rtu(&[1, 8, 0, low, 0, 0]));
        assert_eq!(said, shown(low, count));
    }
    let echo = rtu(&[1, 8, 0, 0, 0x12, 0x34]);
    assert_eq!(hear(&mut line, &echo), Some(echo.clone()));
    // A refused clear leaves them, a good one doesn't.
    let exception = rtu(&[1, 0x88, 3]);
    let said = hear(&mut line, &rtu(&[1, 8, 0, 10, 0, 1]));
    assert_eq!((said, line.exceptions), (Some(exception), 2));
    let exception = rtu(&[1, 0x88, 1]);
    let said = hear(&mut line, &rtu(&[1, 8, 1, 10, 0, 0]));
    assert_eq!((said, line.exceptions), (Some(exception), 3));
    assert_eq!(hear(&mut line, &rtu(&[1, 8, 0, 10, 0, 0])), shown(10, 0));
    assert_eq!(line, Counters::default());
    // Each stops at FFFFh.
    let full = Counters {
        bus: 0xFFFF,
        damaged: 0xFFFF,
        exceptions: 0xFFFF,
        own: 0xFFFF,
        unanswered: 0xFFFF,
    };
    line = full;
    for frame in [damaged, rtu(&[1, 3, 0, 0, 0, 1]), rtu(&[0, 3, 0, 0, 0, 1])] {
        let _ = hear(&mut line, &frame);
        assert_eq!(line, full);
    }
    let said = hear(&mut line, &rtu(&[1, 8, 0, 13, 0, 0]));
    assert_eq!(said, shown(13, 0xFFFF));
}

#[test]
fn counters_are_laid_out_as_in_c() {
    use std::mem::{align_of, offset_of, size_of};
    assert_eq!((size_of::<Counters>(), align_of::<Counters>()), (10, 2));
    assert_eq!(
        [
            offset_of!(Counters, bus),
            offset_of!(Counters, damaged),
            offset_of!(Counters, exceptions),
            offset_of!(Counters, own),
            offset_of!(Counters, unanswered),
        ],
        [0, 2, 4, 6, 8]
    );
}

#[test]
fn a_frame_for_all_is_carried_out_in_silence() {
    let (mut words, attributes) = table();
    let mut room = [0u8; STATION_ROOM];
    let mut answer = |station: Station, frame: &[u8], words: &mut [u16]| {
        station
            .answer(words, &attributes, Profile::None, OWN, frame, &mut room)
            .map(|answer| match answer {
                Answer::Reply(reply) => panic!("{reply:?}"),
                Answer::CarriedOut => None,
                Answer::Silence(why) => Some(why),
                other => panic!("{other:?}"),
            })
    };
    let write = [0x00, 0x06, 0x00, 0x05, 0x12, 0x34, 0x95, 0x6D];
    let mut counters = Counters::default();
    let rtu = Station::Rtu(&mut counters);
    assert_eq!(answer(rtu, &write, &mut words), Ok(None));
    assert_eq!((words[5], counters.unanswered), (0x1234, 1));
    words[5] = 0;
    assert_eq!(
        answer(Station::Mewtocol, b"%FF#WDD0000500005341255\r", &mut words),
        Ok(None)
    );
    assert_eq!(words[5], 0x1234);
    // A read, a wrong check, and `ff`.
    for silent in [
        b"%FF#RDD000050000554\r".as_slice(),
        b"%FF#WDD0000500005000050\r",
        b"%ff#WDD0000500005341255\r",
    ] {
        assert_eq!(
            answer(Station::Mewtocol, silent, &mut words),
            Ok(Some(Refusal::OtherStation))
        );
    }
    assert_eq!(words[5], 0x1234);
    assert_eq!(room, [0u8; STATION_ROOM]);
}

#[test]
fn a_station_keeps_to_attributes() {
    let mut words = table().0;
    let mut room = [0u8; STATION_ROOM];
    let mut answer = |attribute, frame: &[u8]| {
        let answer = Station::Mewtocol.answer(
            &mut words,
            &[attribute; 136],
            Profile::None,
            OWN,
            frame,
            &mut room,
        );
        answer.unwrap().reply().unwrap().to_vec()
    };
    let (read, write) = (b"%01#RDD001050010757\r", b"%01#WDD0010500105000050\r");
    assert_eq!(answer(Attribute::READ, read), b"%01$RD3412FFFF000012\r");
    assert_eq!(answer(Attribute::READ, write), b"%01!6605\r");
    assert_eq!(answer(Attribute::WRITE, read), b"%01!6605\r");
    assert_eq!(answer(Attribute::HOLE, read), b"%01!6605\r");
    assert_eq!(answer(Attribute::WRITE, write), b"%01$WD13\r");
    assert_eq!(words[105], 0);
}

/// The function and what follows of the reply to a body at a station of this profile, over a table of zeros; empty for silence.
fn said_to(profile: Profile, words: &mut [u16], body: &[u8]) -> Vec<u8> {
    let mut frame = body.to_vec();
    frame.extend(crc(body).to_le_bytes());
    let (mut counters, mut room) = (Counters::default(), [0u8; MODBUS_ROOM]);
    let attributes = vec![Attribute::READ_WRITE; words.len()];
    let station = Station::Rtu(&mut counters);
    let answer = station.answer(words, &attributes, profile, OWN, &frame, &mut room);
    match answer.unwrap().reply() {
        Some(reply) => reply[1..reply.len() - 2].to_vec(),
        None => Vec::new(),
    }
}

#[test]
fn a_profile_refuses_whole() {
    const REFUSED: [[u8; 2]; 3] = [[0x86, 3], [0x90, 3], [0x96, 3]];
    let head = Profile::HlG2Mm50;
    let mut words = [0u16; 136];
    // Both ends of a pair, and one past each.
    for (low, high, taken) in [
        (0x7EF0u16, 0x000Eu16, true),
        (0x7EF1, 0x000E, false),
        (0x8110, 0xFFF1, true),
        (0x810F, 0xFFF1, false),
        (0x000E, 0x7EF0, false),
        (0, 0, true),
    ] {
        let before = [words[100], words[101]];
        let mut body = vec![0x01, 0x10, 0, 100, 0, 2, 4];
        body.extend([low, high].iter().flat_map(|word| word.to_be_bytes()));
        let said = said_to(head, &mut words, &body);
        if taken {
            assert_eq!((said[0], [words[100], words[101]]), (0x10, [low, high]));
        } else {
            assert_eq!((said, [words[100], words[101]]), (REFUSED[1].to_vec(), before));
        }
        // Without a profile nothing is refused.
        assert_eq!(said_to(Profile::None, &mut [0; 136], &body)[0], 0x10);
    }
    // Half a pair, and the second half of one with the first of the next.
    assert_eq!(said_to(head, &mut words, &[1, 6, 0, 100, 0, 0]), REFUSED[0]);
    assert_eq!(said_to(head, &mut words, &[1, 6, 0, 103, 0, 0]), REFUSED[0]);
    let middle = [1, 0x10, 0, 101, 0, 2, 4, 0, 0, 0, 0];
    assert_eq!(said_to(head, &mut words, &middle), REFUSED[1]);
    // A mask counts as what it leaves; on half a pair it is refused whatever that is.
    words[57] = 1;
    let mask = |word: u8, and: u8, or: u8| [1, 0x16, 0, word, 0, and, 0, or];
    assert_eq!(said_to(head, &mut words, &mask(57, 0xFF, 0xFF))[0], 0x16);
    assert_eq!(said_to(head, &mut words, &mask(57, 0x00, 0x05)), REFUSED[2]);
    assert_eq!(said_to(head, &mut words, &mask(101, 0xFF, 0)), REFUSED[2]);
    // The single registers.
    for (word, value, taken) in [
        (53, 0, true),
        (53, 1, false),
        (55, 0, true),
        (55, 1, false),
        (57, 0, false),
        (57, 4, true),
        (57, 5, false),
        (70, 2, true),
        (70, 3, false),
        (71, 3, true),
    ] {
        let said = said_to(head, &mut words, &[1, 6, 0, word, 0, value]);
        assert_eq!(said[0] == 6, taken, "{word} {value}");
    }
    // For all stations it is silence, and nothing is done.
    assert_eq!(said_to(head, &mut words, &[0, 6, 0, 57, 0, 5]), []);
    assert_eq!(words[57], 4);
}

#[test]
fn a_pair_is_read_and_written() {
    for number in [0, 1, -1, 65_535, 65_536, -65_536, 950_000, -950_000] {
        let (low, high) = pair_words(number).unwrap();
        assert_eq!(pair_value(low, high), number);
    }
    for number in [950_001, -950_001, i32::MAX, i32::MIN] {
        assert_eq!(pair_words(number), Err(Refusal::NoRequest));
    }
    assert_eq!(pair_words(950_000), Ok((0x7EF0, 0x000E)));
    assert_eq!(pair_value(0, 0x8000), i32::MIN);
    assert_eq!(pair_value(0xFFFF, 0x7FFF), i32::MAX);
}

#[test]
fn frames_meet_where_one_writes_what_the_other_touches() {
    let attributes = [Attribute::READ_WRITE; 136];
    let ascii = |frame| Heard {
        format: Format::Ascii,
        own: 1,
        frame,
    };
    let (read, write) = (ascii(b":01030085000176\r\n"), ascii(b":01060085000173\r\n".as_slice()));
    let cell = Cell { word: 133, bit: 0 };
    assert_eq!(meeting(&attributes, Profile::None, read, write), Some(cell));
    assert_eq!(meeting(&attributes, Profile::None, write, write), Some(cell));
    assert_eq!(meeting(&attributes, Profile::None, read, read), None);
    // A frame for another station touches nothing.
    assert_eq!(meeting(&attributes, Profile::None, read, Heard { own: 2, ..write }), None);
    // Nor does one that the profile refuses whatever the words hold.
    let half = ascii(b":01060064000194\r\n");
    assert_eq!(meeting(&attributes, Profile::None, half, half), Some(Cell { word: 100, bit: 0 }));
    assert_eq!(meeting(&attributes, Profile::HlG2Mm50, half, half), None);
}

#[test]
fn attributes_are_what_their_numbers_say() {
    for number in 0..=3 {
        let attribute = Attribute::from_number(number).unwrap();
        assert_eq!(attribute.number(), number);
        assert_eq!(
            (attribute.may_read(), attribute.may_write()),
            (number & 1 != 0, number & 2 != 0)
        );
    }
    assert_eq!(Attribute::from_number(4), None);
    assert_eq!(Attribute::default(), Attribute::HOLE);
}

#[test]
fn contacts_have_names() {
    for relay_word in 0..=999 {
        for bit in 0..=15 {
            let made = Contact::new(relay_word, bit).unwrap();
            assert_eq!((made.relay_word(), made.bit()), (relay_word, bit));
            assert_eq!(contact(&made.to_string()), made);
        }
    }
    assert_eq!(contact("R1030"), Contact::new(103, 0).unwrap());
    assert_eq!((Contact::new(1000, 0), Contact::new(0, 16)), (None, None));
    for name in [
        "", "R", "R103", "R10300", "r1030", "R103f", "R1A30", "X1030", "R103 ", "R-030",
    ] {
        assert_eq!(name.parse::<Contact>(), Err(NotAContact), "{name:?}");
    }
}

#[test]
fn ascii_has_the_same_answers() {
    let mut words = table().0;
    words[133] = 1;
    let mut room = [0u8; STATION_ROOM];
    let mut counters = Counters::default();
    let said = reply(
        Station::Ascii(&mut counters),
        &mut words,
        b":01030085000176\r\n",
        &mut room,
    );
    assert_eq!(said, b":0103020001F9\r\n");
    let said = reply(
        Station::Ascii(&mut counters),
        &mut words,
        b":0108000B0000EC\r\n",
        &mut room,
    );
    assert_eq!(said, b":0108000B0002EA\r\n");
}

#[test]
fn what_is_written_a_station_answers_and_the_reader_takes() {
    let mut words = table().0;
    let (some, inputs) = (
        ["R1000", "R1030"].map(contact),
        ["R1030", "R1031"].map(contact),
    );
    let asks = [
        Ask::ReadContacts(&some[1..]),
        Ask::ReadContacts(&some),
        Ask::ReadRelays(100, 105),
        Ask::WriteContact(contact("R1030"), true),
        Ask::WriteContacts(&inputs, &[true, false]),
        Ask::WriteRelays(103, 104, &[7, 8]),
        Ask::ReadWords(105, 107),
        Ask::WriteWords(1, 2, &[3, 4]),
        Ask::FillWords(1, 90, 0xABCD),
    ];
    let lengths = [1, 2, 24, 0, 0, 0, 12, 0, 0];
    for (ask, length) in asks.into_iter().zip(lengths) {
        let mut request = [0u8; REQUEST_ROOM];
        let n = ask.write(OWN, Form::Ordinary, &mut request).unwrap();
        let mut room = [0u8; STATION_ROOM];
        let said = reply(Station::Mewtocol, &mut words, &request[..n], &mut room);
        let Ok(Reply::Data(data)) = ask.read(OWN, Form::Ordinary, said) else {
            panic!("{ask:?}")
        };
        assert_eq!(data.bytes().len(), length, "{ask:?}");
    }
    assert_eq!((words[1], words[90], words[91]), (0xABCD, 0xABCD, 0));
}

#[test]
fn the_host_refuses_in_order() {
    let mut room = [0u8; REQUEST_ROOM];
    let ask = Ask::ReadWords(105, 107);
    assert_eq!(ask.write(100, Form::Ordinary, &mut []), Err(Refusal::BadStation));
    assert_eq!(
        Ask::ReadWords(1, 0).write(1, Form::Ordinary, &mut room[1..]),
        Err(Refusal::SmallRoom)
    );
    assert_eq!(
        Ask::ReadWords(1, 0).write(1, Form::Ordinary, &mut room),
        Err(Refusal::NoRequest)
    );
    for contacts in [&[][..], &[contact("R1000"); 9]] {
        assert_eq!(
            Ask::ReadContacts(contacts).write(1, Form::Ordinary, &mut room),
            Err(Refusal::NoRequest)
        );
    }
    assert_eq!(
        Ask::WriteContacts(&[contact("R1000")], &[]).write(1, Form::Ordinary, &mut room),
        Err(Refusal::NoRequest)
    );
    assert_eq!(room, [0u8; REQUEST_ROOM]);
    let read = |ask: Ask, station, frame| ask.read(station, Form::Ordinary, frame).unwrap_err();
    let good = b"%01$RD3412FFFF000012\r";
    assert_eq!(read(ask, 0, good), Refusal::BadStation.into());
    assert_eq!(
        read(Ask::ReadWords(1, 0), 1, b""),
        Refusal::NoRequest.into()
    );
    assert_eq!(read(ask, 1, &good[..20]), Refusal::BadShape.into());
    assert_eq!(
        read(ask, 1, b"%01$RD3412FFFF000013\r"),
        Refusal::BadCheck.into()
    );
    assert_eq!(read(ask, 2, good), Refusal::OtherStation.into());
    assert_eq!(
        read(Ask::ReadWords(105, 106), 1, good),
        Unread::NotThis { place: good.len() }
    );
    // A wrong digit gives way to each of them.
    let wrong = b"%01$RD3G12FFFF000061\r";
    assert_eq!(read(ask, 0, wrong), Refusal::BadStation.into());
    assert_eq!(
        read(Ask::ReadWords(1, 0), 1, wrong),
        Refusal::NoRequest.into()
    );
    assert_eq!(read(ask, 1, &wrong[..20]), Refusal::BadShape.into());
    assert_eq!(
        read(ask, 1, b"%01$RD3G12FFFF000062\r"),
        Refusal::BadCheck.into()
    );
    assert_eq!(read(ask, 2, wrong), Refusal::OtherStation.into());
    assert_eq!(read(ask, 1, wrong), Unread::NotThis { place: 7 });
}

/// A text with its check and its last character behind it.
fn closed(text: &[u8], last: char) -> Vec<u8> {
    let sum = text.iter().fold(0, |sum, byte| sum ^ byte);
    [text, format!("{sum:02X}{last}").as_bytes()].concat()
}

#[test]
fn a_reply_that_is_none_tells_where() {
    let contacts = ["R1000", "R1030", "R105F"].map(contact);
    let (one, some) = (
        Ask::ReadContacts(&contacts[..1]),
        Ask::ReadContacts(&contacts),
    );
    let (relays, words) = (Ask::ReadRelays(100, 101), Ask::ReadWords(105, 107));
    let set = Ask::WriteContact(contacts[0], true);
    let fill = Ask::FillWords(1, 2, 3);
    // Where no place is given, it is the frame's length.
    let rows = [
        // A contact, contacts, relay words, words: a wrong character, other letters, another length.
        (one, "%01$RC2", Some(6)),
        (one, "%01$RD1", None),
        (one, "%01$RC", None),
        (one, "%01$RC12", None),
        (some, "%01$RCx01", Some(6)),
        (some, "%01$RC1/1", Some(7)),
        (some, "%01$RC102", Some(8)),
        (some, "%01$WC102", None),
        (some, "%01$RC1021", None),
        (relays, "%01$RCG0000000", Some(6)),
        (relays, "%01$RC0000000:", Some(13)),
        (relays, "%01$RR0000000:", None),
        (relays, "%01$RC000000:", None),
        (words, "%01$RD3412FfFg0000", Some(11)),
        (words, "%01$RD3412FFFF000@", Some(17)),
        (words, "%01$RC3412FFFF000@", None),
        (words, "%01$RD3412FFF@", None),
        // An echo of the request, and a mark that is neither `$` nor `!`.
        (words, "%01#RDD0010500107", None),
        (words, "%01?RD3412FFFF0000", None),
        // The reply to a write has no data.
        (set, "%01$RC", None),
        (set, "%01$WC1", None),
        (fill, "%01$WD", None),
        (fill, "%01$SD0000", None),
        // An error reply.
        (words, "%01!G6", Some(4)),
        (words, "%01!6a", Some(5)),
        (set, "%01!xx", Some(4)),
        (words, "%01!660", None),
        (words, "%01!xxx", None),
    ];
    for (ask, text, place) in rows {
        let frame = closed(text.as_bytes(), '\r');
        let place = place.unwrap_or(frame.len());
        assert_eq!(
            ask.read(1, Form::Ordinary, &frame),
            Err(Unread::NotThis { place }),
            "{text}"
        );
    }
    // Each digit of the longest reply.
    for k in 0..108 {
        let mut text = b"%01$RD".to_vec();
        text.extend([b'0'; 108]);
        text[6 + k] = b'x';
        let frame = closed(&text, '\r');
        let unread = Ask::ReadWords(0, 26).read(1, Form::Ordinary, &frame).unwrap_err();
        assert_eq!(unread, Unread::NotThis { place: 6 + k });
    }
}

#[test]
fn a_frame_that_tells_no_distance_tells_where() {
    let unread = |text: &[u8]| laser_distance(&closed(text, '.')).unwrap_err();
    for k in 5..11 {
        for wrong in [b'/', b':', b' ', b'D', 0x80] {
            let mut text = *b"/060D12345\0";
            text[k] = wrong;
            assert_eq!(unread(&text), Unread::NotThis { place: k });
            // What stands behind it makes no difference.
            text[10] = wrong;
            assert_eq!(unread(&text), Unread::NotThis { place: k });
        }
    }
    for (text, length) in [
        (&b"/060E12345\0"[..], 14),
        (b"/061D12345\0", 14),
        (b"/060Ex2345\0", 14),
        (b"/050D12345", 13),
        (b"/070D12345\0\0", 15),
        (b"/020D00", 10),
        (b"/000D", 8),
    ] {
        assert_eq!(unread(text), Unread::NotThis { place: length });
    }
    let frame = b"/060Dx2345\x0025.";
    assert_eq!(laser_distance(frame), Err(Unread::NotThis { place: 5 }));
    let cut = laser_distance(&frame[..13]);
    assert_eq!(cut, Err(Refusal::BadShape.into()));
    let damaged = laser_distance(b"/060Dx2345\x0024.");
    assert_eq!(damaged, Err(Refusal::BadCheck.into()));
    // The plain reader takes it.
    assert_eq!(read_laser(frame).unwrap().data, b"x2345\0");
}

#[test]
fn data_past_the_end_is_none() {
    let one = [contact("R1030")];
    let Ok(Reply::Data(data)) = Ask::ReadContacts(&one).read(1, Form::Ordinary, b"%01$RC120\r") else {
        panic!()
    };
    assert_eq!(
        (data.contact(0), data.contact(1), data.word(0)),
        (Some(true), None, None)
    );
}

#[test]
fn laser_frames() {
    let mut room = [0u8; REQUEST_ROOM];
    let n = write_laser(*b"0D", b"12345\0", &mut room).unwrap();
    assert_eq!(laser_distance(&room[..n]), Ok(12_345));
    assert_eq!(read_laser(&room[..n]).unwrap().data, b"12345\0");
    assert_eq!(
        write_laser(*b"0D", &[0; 100], &mut room),
        Err(Refusal::NoRequest)
    );
    assert_eq!(
        write_laser(*b"0D", &[], &mut room[1..]),
        Err(Refusal::SmallRoom)
    );
    assert_eq!(read_laser(b"/020D0058."), Err(Refusal::BadCheck));
    assert_eq!(read_laser(b"/020D0059"), Err(Refusal::BadShape));
}

#[test]
fn numbers_and_addresses() {
    assert_eq!(RegisterNumber(400134).address(), Ok(FrameAddress(133)));
    assert_eq!(FrameAddress(133).number(), Ok(RegisterNumber(400134)));
    assert_eq!(CoilNumber(209).address(), Ok(CoilAddress(208)));
    assert_eq!(CoilAddress(208).number(), Ok(CoilNumber(209)));
    assert_eq!(RegisterNumber(404_097).address(), Ok(FrameAddress(4096)));
    assert_eq!(RegisterNumber(465_536).address(), Ok(FrameAddress(65535)));
    for wrong in [400_000, 465_537, u32::MAX] {
        assert_eq!(RegisterNumber(wrong).address(), Err(Refusal::OutOfRange));
    }
    assert_eq!(FrameAddress(65535).number(), Ok(RegisterNumber(465_536)));
    assert_eq!(FrameAddress(65536).number(), Err(Refusal::OutOfRange));
    assert_eq!(CoilNumber(160).address(), Err(Refusal::OutOfRange));
    assert_eq!(CoilAddress(256).number(), Err(Refusal::OutOfRange));
}

#[test]
fn bits() {
    assert_eq!(bits_differing(&[], &[]), Ok(0));
    assert_eq!(bits_differing(&[0; 256], &[255; 256]), Ok(2048));
    assert_eq!(
        bits_differing(&[0; 257], &[255; 257]),
        Err(Refusal::BadLengths)
    );
    assert_eq!(bits_differing(b"a", b"ab"), Err(Refusal::BadLengths));
    assert_eq!(crc(&[0x01, 0x08, 0x00, 0x0C, 0x00, 0x00]), 0x0820);
}

#[test]
fn attributes_from_a_file() {
    fn field(tag: u8, value: &[u8]) -> Vec<u8> {
        [&[tag], &(value.len() as u16).to_be_bytes()[..], value].concat()
    }
    fn group(name: &[u8], items: &[u8]) -> Vec<u8> {
        field(3, &[&field(1, name)[..], items].concat())
    }
    let run = |first: u8, count: u8, attribute: u8| field(2, &[0, first, 0, count, attribute]);
    let fill = |file: &[u8], name: &[u8]| {
        let mut attributes = [Attribute::WRITE; 8];
        fill_attributes(file, name, &mut attributes).map(|()| attributes.map(Attribute::number))
    };
    let inner = group(b"B ", &run(2, 1, 2));
    let file = group(b"A", &[&run(0, 2, 1)[..], &inner].concat());
    assert_eq!(fill(&file, b"A"), Ok([1, 1, 0, 0, 0, 0, 0, 0]));
    assert_eq!(fill(&file, b"B "), Ok([1, 1, 2, 0, 0, 0, 0, 0]));
    assert_eq!(fill(&file, b"B"), Err(Refusal::NoSuchName));
    assert_eq!(fill(&[], b"A"), Err(Refusal::BadFile));
    assert_eq!(fill(&run(0, 1, 1), b"A"), Err(Refusal::BadFile));
    let deep = (0..4).fold(group(b"4", &[]), |inside, k| group(&[b'0' + k], &inside));
    assert_eq!(fill(&deep, b"4"), Err(Refusal::TooDeep));
    let meet = group(b"A", &[run(0, 2, 1), run(1, 1, 1)].concat());
    assert_eq!(fill(&meet, b"A"), Err(Refusal::RunsMeet));
    assert_eq!(
        fill(&group(b"A", &run(7, 2, 1)), b"A"),
        Err(Refusal::RunsMeet)
    );
    assert_eq!(
        fill(&group(b"A", &group(b"A", &[])), b"A"),
        Err(Refusal::NameTwice)
    );
    // A refusal leaves the attributes.
    let mut many = [Attribute::WRITE; TABLE_LIMIT + 1];
    assert_eq!(
        fill_attributes(&file, b"A", &mut many),
        Err(Refusal::BadTable)
    );
    assert!(many.iter().all(|a| *a == Attribute::WRITE));
    assert_eq!(fill_attributes(&file, b"A", &mut many[1..]), Ok(()));
    for number in 20..=24 {
        let refusal = [
            Refusal::BadFile,
            Refusal::TooDeep,
            Refusal::RunsMeet,
            Refusal::NameTwice,
            Refusal::NoSuchName,
        ][number - 20];
        assert_eq!(refusal.number(), number as u32);
        assert!(!refusal.is_own_mistake());
    }
}

#[test]
fn words_of_a_reply_are_an_iterator() {
    let Ok(Reply::Data(data)) = Ask::ReadWords(105, 107).read(1, Form::Ordinary, b"%01$RD3412FFFF000012\r") else {
        panic!()
    };
    assert_eq!(data.words().collect::<Vec<_>>(), [0x1234, 0xFFFF, 0]);
    let mut words = data.words();
    assert_eq!(words.by_ref().count(), 3);
    assert_eq!(words.next(), None);
    let Ok(Reply::Data(data)) = Ask::FillWords(1, 2, 3).read(1, Form::Ordinary, b"%01$SD17\r") else {
        panic!()
    };
    assert_eq!((data.words().next(), data.contacts().next()), (None, None));
}

#[test]
fn refusals_tell_whose_mistake_it_is() {
    let own = [
        Refusal::BadTable,
        Refusal::BadStation,
        Refusal::SmallRoom,
        Refusal::OutOfRange,
        Refusal::BadLengths,
        Refusal::NoRequest,
    ];
    let frames = [
        Refusal::BadShape,
        Refusal::BadCheck,
        Refusal::OtherStation,
        Refusal::Other(13),
    ];
    assert!(own.into_iter().all(Refusal::is_own_mistake));
    assert!(!frames.into_iter().any(Refusal::is_own_mistake));
    assert_eq!(
        Refusal::BadCheck.to_string(),
        "the frame's check is wrong (11)"
    );
    for refusal in own.into_iter().chain(frames) {
        let unread = Unread::from(refusal);
        assert_eq!(unread, Unread::Refused(refusal));
        assert_eq!(unread.number(), refusal.number());
        assert_eq!(unread.is_own_mistake(), refusal.is_own_mistake());
        assert_eq!(unread.to_string(), refusal.to_string());
    }
    let unread = Unread::NotThis { place: 7 };
    assert_eq!((unread.number(), unread.is_own_mistake()), (13, false));
    assert_eq!(
        unread.to_string(),
        "the frame is no reply to this (13, at 7)"
    );
}

/// Numbers from a seed.
struct Chance(u64);

impl Chance {
    fn below(&mut self, limit: usize) -> usize {
        self.0 ^= self.0 << 13;
        self.0 ^= self.0 >> 7;
        self.0 ^= self.0 << 17;
        (self.0 >> 16) as usize % limit
    }

    /// Bytes of any values, or a frame with some of them changed.
    fn bytes(&mut self) -> Vec<u8> {
        let frames: [&[u8]; 6] = [
            b"%01$RD3412FFFF000012\r",
            b"%01#WCSR1030121\r",
            b":01030085000176\r\n",
            b"/060D12345\x006C.",
            &[0x01, 0x03, 0x00, 0x85, 0x00, 0x01, 0x95, 0xE3],
            &[0x01, 0x08, 0x00, 0x0B, 0x00, 0x00, 0x91, 0xC9],
        ];
        let mut bytes = match self.below(7) {
            6 => vec![0; self.below(700)],
            k => frames[k].to_vec(),
        };
        for _ in 0..self.below(4) {
            if !bytes.is_empty() {
                let k = self.below(bytes.len());
                bytes[k] = self.below(256) as u8;
            }
        }
        bytes
    }
}

#[test]
fn nothing_panics() {
    let mut chance = Chance(20_260_101);
    let contacts = [contact("R1030"); 10];
    let mut lines = [Counters::default(); 2];
    for _ in 0..100_000 {
        let (frame, other) = (chance.bytes(), chance.bytes());
        let mut words = vec![0; chance.below(5000)];
        let attributes =
            vec![Attribute::READ_WRITE; words.len() - chance.below(2).min(words.len())];
        let mut room = vec![0; 500 + chance.below(20)];
        let (own, first, last) = (
            chance.below(300) as u32,
            chance.below(100_100) as u32,
            chance.below(100_100) as u32,
        );
        let [rtu, ascii] = &mut lines;
        for station in [Station::Mewtocol, Station::Rtu(rtu), Station::Ascii(ascii)] {
            let profile = if chance.below(2) == 0 {
                Profile::None
            } else {
                Profile::HlG2Mm50
            };
            let _ = station.answer(&mut words, &attributes, profile, own, &frame, &mut room);
        }
        let n = chance.below(10);
        for ask in [
            Ask::ReadWords(first, last),
            Ask::ReadWords(105, 107),
            Ask::WriteRelays(first, first.wrapping_add(2), &words),
            Ask::WriteContacts(&contacts[..n], &[true; 8]),
            Ask::ReadContacts(&contacts[..n]),
        ] {
            let _ = ask.write(own, Form::Ordinary, &mut room);
            if let Ok(Reply::Data(data)) = ask.read(1, Form::Ordinary, &frame) {
                let _ = (data.words().count(), data.contacts().count());
            }
        }
        let _ = (read_laser(&frame), laser_distance(&frame));
        let _ = (
            write_laser([first as u8, last as u8], &other, &mut room),
            bits_differing(&frame, &other),
            crc(&frame),
        );
        let _ = (RegisterNumber(first).address(), CoilAddress(last).number());
        let _ = pair_words(pair_value(first as u16, last as u16));
        let _ = fill_attributes(&frame, &other, &mut attributes.clone());
    }
}
