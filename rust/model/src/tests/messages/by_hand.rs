//! Messages, headers, lengths and refusals worked by hand, each field and each length in turn.

use super::*;

#[test]
fn messages_by_hand() {
    #[rustfmt::skip]
    let capabilities = [
        0xA1, 0x61, 0x2C, 0x91, 0x01, 0x00, 0x2C, 0xD1, 0x02, 0x00, 0xF0, 0xB0, 0x04, 0x00,
        0x00, 0xC0, 0x03, 0xE0, 0x3C, 0x32, 0xDC, 0xC8, 0x30, 0x32, 0x40, 0xC9,
    ];
    let words = [0x0001912C, 0x0002D12C, 0x0004B0F0, 0xE003C000, 0xC8DC323C, 0xC9403230, 0];
    let header = Header {
        extended: 0,
        count: 6,
        id: 0,
        power_role: 1,
        revision: 2,
        data_role: 1,
        message_type: 1,
    };
    both_ways(&capabilities, Message { header, words });
    assert_eq!(words, built(profile(72, 72, 300, 0, 1)).words);

    let request = [0x82, 0x12, 0x45, 0x15, 0x05, 0x40];
    let header = Header {
        extended: 0,
        count: 1,
        id: 1,
        power_role: 0,
        revision: 2,
        data_role: 0,
        message_type: 2,
    };
    both_ways(&request, Message { header, words: [0x4005_1545, 0, 0, 0, 0, 0, 0] });
}

/// Each row of the table: its lowest and its highest number, and each of its bits alone.
#[test]
fn header_by_hand() {
    let base = CAPABILITIES;
    let rows = [
        ([0x01, 0x10], base),
        ([0x02, 0x10], Header { message_type: 2, ..base }),
        ([0x01, 0x20], Header { count: 2, ..base }),
        ([0x01, 0x40], Header { count: 4, ..base }),
        ([0x01, 0x70], Header { count: 7, ..base }),
        ([0x01, 0x12], Header { id: 1, ..base }),
        ([0x01, 0x14], Header { id: 2, ..base }),
        ([0x01, 0x18], Header { id: 4, ..base }),
        ([0x01, 0x1E], Header { id: 7, ..base }),
        ([0x01, 0x11], Header { power_role: 1, ..base }),
        ([0x41, 0x10], Header { revision: 1, ..base }),
        ([0x81, 0x10], Header { revision: 2, ..base }),
        ([0xC1, 0x10], Header { revision: 3, ..base }),
        ([0x21, 0x10], Header { data_role: 1, ..base }),
    ];
    for ([low, high], header) in rows {
        let mut bytes = [0; 30];
        bytes[..2].copy_from_slice(&[low, high]);
        bytes[2..].copy_from_slice(&LIST_BYTES);
        both_ways(&bytes[..length(header.count)], Message { header, words: LIST });
    }
    let all = Header { id: 7, power_role: 1, revision: 3, data_role: 1, ..base };
    let message = Message { header: Header { count: 7, ..all }, words: LIST };
    both_ways(&bytes_with(0x7FE1)[..30], message);
    let message = Message { header: Header { message_type: 2, ..all }, words: LIST };
    both_ways(&bytes_with(0x1FE2)[..6], message);

    for (bits, number) in [(0x9001, 42), (0x1000, 41), (0x1003, 41), (0x1011, 41), (0x101F, 41)] {
        assert_eq!(read_message(&bytes_with(bits)[..6]), refused(number, 0));
        not_written(number, 0, ROOM, &Message { header: numbers(bits), words: LIST });
    }
    // A type of 0 and a count of 0, which an empty header is too.
    assert_eq!(read_message(&[0, 0]), refused(41, 0));
    assert_eq!(take_message(&[0, 0]), refused(41, 0));
    not_written(41, 0, ROOM, &Message::default());
}

#[test]
fn every_header() {
    let mut seen = 0;
    for bits in 0..=u16::MAX {
        let header = numbers(bits);
        let bytes = &bytes_with(bits)[..length(header.count)];
        let message = Message { header, words: LIST };
        let number = match (header.extended, header.message_type, header.count) {
            (1, _, _) => 42,
            (_, 1, 0) => 10,
            (_, 1, _) | (_, 2, 1) => 0,
            (_, 2, _) => 53,
            _ => 41,
        };
        if number == 0 {
            both_ways(bytes, message);
            seen += 1;
            continue;
        }
        assert_eq!(read_message(bytes), refused(number, 0), "{bits:04X}");
        not_written(number, 0, ROOM, &message);
        let taken = if number == 10 { accepted(message) } else { refused(number, 0) };
        assert_eq!(take_message(bytes), taken, "{bits:04X}");
    }
    // Seven counts of type 1 and one of type 2, with every id, role and revision.
    assert_eq!(seen, 8 * (8 * 2 * 4 * 2));
}

/// 40 comes first, whatever the header is.
#[test]
fn every_length() {
    for count in 0..=7 {
        for kind in [0x0001, 0x0002, 0x0000, 0x001F, 0x8001, 0x0FE2] {
            let bits = u16::from(count) * 4096 + kind;
            let bytes = bytes_with(bits);
            for given in 0..=ROOM {
                let (read, taken) = (read_message(&bytes[..given]), take_message(&bytes[..given]));
                if given == length(count) {
                    assert_ne!(read.verdict.number, 40, "{bits:04X}");
                    assert_ne!(taken.verdict.number, 40, "{bits:04X}");
                    continue;
                }
                assert_eq!(read, refused(40, 0), "{bits:04X} {given}");
                assert_eq!(taken, refused(40, 0), "{bits:04X} {given}");
            }
        }
    }
    for byte in 0..=u8::MAX {
        assert_eq!(read_message(&[byte]), refused(40, 0));
        assert_eq!(take_message(&[byte]), refused(40, 0));
    }
}

/// "the number of rows and that of bytes anything that the machine can count": none is cut off.
#[test]
fn far_too_many_bytes() {
    let mut bytes = [0; 65536 + 30];
    for bits in [0x7001, 0x1002, 0x1001] {
        bytes[..ROOM].copy_from_slice(&bytes_with(bits));
        let length = length(numbers(bits).count);
        for more in [4, 32, 256, 1024, 65536] {
            assert_eq!(read_message(&bytes[..length + more]), refused(40, 0));
            assert_eq!(take_message(&bytes[..length + more]), refused(40, 0));
        }
        for room in [256, 257, 65536, 65537, 65536 + 30] {
            let mut buffer = [0xAA; 65536 + 30];
            let message = Message { header: numbers(bits), words: LIST };
            let written = write_message(&mut buffer[..room], &message);
            assert_eq!(written, Written { verdict: said(0, 0), length: length as u8 });
            assert_eq!(buffer[..length], bytes[..length]);
            assert!(buffer[length..].iter().all(|&byte| byte == 0xAA));
        }
    }
}

#[test]
fn every_room() {
    for count in 0..=7 {
        for room in 0..=ROOM {
            let message = Message { header: Header { count, ..CAPABILITIES }, words: LIST };
            let number = match count {
                _ if room < length(count) => 52,
                0 => 10,
                _ => 0,
            };
            assert_eq!(wrote(room, &message).0.verdict, said(number, 0));
        }
    }
    for room in 0..=ROOM {
        let number = if room < 6 { 52 } else { 0 };
        let message = Message { header: REQUEST, words: LIST };
        assert_eq!(wrote(room, &message).0.verdict, said(number, 0));
    }
}

/// Two refusals that both apply, and the one that is given.
#[test]
fn order_of_reading() {
    let bad = given(CAPABILITIES, &[LIST[1]]);
    let read = |number, place, bits: u16, bytes: usize| {
        let mut made = bytes_with(bits);
        made[2..6].copy_from_slice(&[0x2C, 0xD1, 0x02, 0x00]);
        assert_eq!(read_message(&made[..bytes]), refused(number, place), "{bits:04X}");
        let taken = if number < 40 { accepted(bad) } else { refused(number, 0) };
        assert_eq!(take_message(&made[..bytes]), taken, "{bits:04X}");
    };
    read(40, 0, 0x9001, 5);
    read(40, 0, 0x1003, 5);
    read(40, 0, 0x2002, 6);
    read(40, 0, 0x1001, 10);
    read(40, 0, 0x0001, 6);
    read(42, 0, 0x9003, 6);
    read(42, 0, 0xA002, 10);
    read(42, 0, 0x9001, 6);
    read(41, 0, 0x1003, 6);
    read(53, 0, 0x2002, 10);
    read(11, 1, 0x1001, 6);
}

#[test]
fn order_of_writing() {
    let (good, short) = (6, 5);
    let base = CAPABILITIES;
    let write = |number, place, header: Header, room| {
        not_written(number, place, room, &given(header, &[LIST[1]]));
    };
    // Extended 2 is too wide and not extended; types 33 and 34 are too wide, not 1 and 2.
    write(51, 0, Header { extended: 2, ..base }, good);
    write(51, 0, Header { extended: 1, id: 8, ..base }, good);
    write(51, 0, Header { message_type: 33, ..base }, good);
    write(51, 0, Header { message_type: 34, ..base }, good);
    write(51, 0, Header { message_type: 3, revision: 4, ..base }, good);
    write(51, 0, Header { count: 8, ..REQUEST }, good);
    write(51, 0, Header { count: 9, ..REQUEST }, good);
    write(51, 0, Header { data_role: 2, ..base }, short);
    write(51, 0, Header { count: 255, ..base }, short);
    write(51, 0, Header { power_role: 2, ..base }, good);
    write(42, 0, Header { extended: 1, message_type: 3, ..base }, good);
    write(42, 0, Header { extended: 1, count: 2, ..REQUEST }, good);
    write(42, 0, Header { extended: 1, ..base }, short);
    write(42, 0, Header { extended: 1, ..base }, good);
    write(41, 0, Header { message_type: 3, ..base }, short);
    write(41, 0, Header { message_type: 0, ..base }, good);
    write(53, 0, Header { count: 2, ..REQUEST }, short);
    write(53, 0, Header { count: 0, ..REQUEST }, 1);
    write(52, 0, base, short);
    write(52, 0, REQUEST, short);
    write(52, 0, Header { count: 0, ..base }, 1);
    write(52, 0, Header { count: 0, ..base }, 0);
    write(10, 0, Header { count: 0, ..base }, 2);
    write(11, 1, base, good);
}

/// "a field of the header that is wider than its bits (51)", and no other.
#[test]
fn every_number_of_each_field() {
    for number in 0..=u8::MAX {
        let base = CAPABILITIES;
        let wide = |most| if number > most { 51 } else { 0 };
        let rows = [
            (Header { extended: number, ..base }, if number == 1 { 42 } else { wide(1) }),
            (Header { count: number, ..base }, if number == 0 { 10 } else { wide(7) }),
            (Header { id: number, ..base }, wide(7)),
            (Header { power_role: number, ..base }, wide(1)),
            (Header { revision: number, ..base }, wide(3)),
            (Header { data_role: number, ..base }, wide(1)),
            (
                Header { message_type: number, ..base },
                if matches!(number, 0 | 3..=31) { 41 } else { wide(31) },
            ),
        ];
        for (header, refusal) in rows {
            let message = Message { header, words: LIST };
            if refusal != 0 {
                not_written(refusal, 0, ROOM, &message);
                continue;
            }
            let (written, buffer) = wrote(ROOM, &message);
            both_ways(&buffer[..usize::from(written.length)], message);
        }
    }
}

/// "with the numbers and places of the shape check", and taken apart "as it stands".
#[test]
fn shapes_in_messages() {
    let five = LIST[0];
    let cases: [(u8, u8, &[u32]); 19] = [
        (10, 0, &[]),
        (11, 1, &[LIST[1], five]),
        (11, 1, &[0]),
        (11, 1, &[0xD000_0000]),
        (12, 2, &[five, 0xD000_0000]),
        (12, 3, &[five, LIST[1], 0xF000_0000, five]),
        (13, 1, &[five | 1 << 22]),
        (13, 2, &[five, LIST[1] | 1 << 29]),
        (14, 2, &[five, five]),
        (14, 2, &[five, five, 0xD000_0000]),
        (14, 7, &[five, LIST[1], LIST[2], LIST[3], LIST[4], LIST[5], LIST[4]]),
        (15, 2, &[five, fixed(21, 1)]),
        (15, 2, &[five, battery(99, 100, 1)]),
        (16, 2, &[five, fixed(20, 501)]),
        (16, 3, &[five, battery(400, 100, 1), battery(400, 100, 401)]),
        (17, 2, &[five, avs(0, 0)]),
        (17, 3, &[five, LIST[2], avs(239, 0), LIST[5]]),
        (17, 5, &[five, LIST[1], LIST[2], LIST[3], avs(240, 179), LIST[5], LIST[6]]),
        (14, 6, &[five, LIST[1], LIST[2], LIST[3], avs(240, 179), LIST[3]]),
    ];
    for (number, place, words) in cases {
        let count = words.len() as u8;
        let header = Header { count, id: 5, power_role: 1, revision: 2, ..CAPABILITIES };
        let message = given(header, words);
        let mut bytes = bytes_with(u16::from(count) * 4096 + 0x0B81);
        for (at, word) in words.iter().enumerate() {
            bytes[2 + 4 * at..][..4].copy_from_slice(&word.to_le_bytes());
        }
        let bytes = &bytes[..length(count)];
        assert_eq!(read_message(bytes), refused(number, place), "{words:08X?}");
        assert_eq!(take_message(bytes), accepted(message), "{words:08X?}");
        not_written(number, place, ROOM, &message);
        not_written(number, place, length(count), &message);
        if count > 0 {
            not_written(52, 0, length(count) - 1, &message);
        }
    }
}

/// "The word of a Request is not judged".
#[test]
fn any_word_in_a_request() {
    let mut seeded = Seeded(1);
    for step in 0..1 << 16 {
        let word = match step {
            0..=31 => 1 << step,
            32 => 0,
            33 => u32::MAX,
            _ => seeded.next(),
        };
        let [a, b, c, d] = [1, 256, 65536, 1 << 24].map(|one| (word / one % 256) as u8);
        both_ways(&[0x02, 0x10, a, b, c, d], given(REQUEST, &[word]));
    }
}

/// "the words past it are not looked at".
#[test]
fn words_past_the_count() {
    for count in 1..=7 {
        let bits = u16::from(count) * 4096 + 1;
        for junk in [0, 1, 0xD000_0000, u32::MAX] {
            let mut words = [junk; 7];
            words[..usize::from(count)].copy_from_slice(&LIST[..usize::from(count)]);
            let header = Header { count, ..CAPABILITIES };
            both_ways(&bytes_with(bits)[..length(count)], Message { header, words });
            let request = Message { header: REQUEST, words };
            both_ways(&bytes_with(0x1002)[..6], request);
        }
    }
}

/// Lists that are built, in messages with other things to carry.
#[test]
fn built_lists_both_ways() {
    let mut seeded = Seeded(2);
    for max in 1..=200 {
        for (present, pps) in [(max, 0), (max, 1), (max - max / 2, 0), (1, 0)] {
            let list = built(Profile { flags: 63, ..profile(max, present, 500, 0, pps) });
            let header = Header { count: list.count, message_type: 1, ..seeded.header() };
            let message = Message { header, words: list.words };
            let (written, buffer) = wrote(ROOM, &message);
            assert_eq!(usize::from(written.length), length(list.count));
            both_ways(&buffer[..length(list.count)], message);
        }
    }
}
