//! Both ways round, and any bytes, from a fixed seed.

use super::*;

/// "Reading what was written gives the same header and the same words up to the count."
#[test]
fn seeded_writing_is_read() {
    let mut seeded = Seeded(3);
    let (mut good, mut bad) = (0, 0);
    for _ in 0..1 << 17 {
        let message = Message { header: seeded.header(), words: seeded.words() };
        let count = message.header.count;
        let room = seeded.below(ROOM as u32 + 1) as usize;
        let list = shape(&Words { words: message.words, count });
        let (written, buffer) = wrote(room, &message);
        if room < length(count) {
            assert_eq!(written.verdict, said(52, 0), "{message:?}");
            continue;
        }
        if message.header.message_type == 1 && list != said(0, 0) {
            assert_eq!(written.verdict, list, "{message:?}");
            bad += 1;
            continue;
        }
        assert_eq!(usize::from(written.length), length(count));
        both_ways(&buffer[..length(count)], message);
        good += 1;
    }
    assert!(good > 10_000 && bad > 5_000, "{good} {bad}");
}

/// "Writing what was read gives the same bytes, whatever stood in the buffer", and taking apart is
/// reading without the list.
#[test]
fn seeded_reading_is_written() {
    let mut seeded = Seeded(4);
    let (mut good, mut bad, mut neither) = (0, 0, 0);
    for _ in 0..1 << 17 {
        let Header { count, message_type, .. } = seeded.header();
        let bits =
            u16::from(count) * 4096 + seeded.below(128) as u16 * 32 + u16::from(message_type);
        let mut bytes = bytes_with(bits);
        for _ in 0..seeded.below(3) * seeded.below(3) {
            bytes[2 + seeded.below(28) as usize] ^= seeded.next() as u8;
        }
        if seeded.below(8) == 0 {
            bytes[1] = seeded.next() as u8;
        }
        let bytes = &bytes[..length(count)];
        let (read, taken) = (read_message(bytes), take_message(bytes));
        if taken.verdict != said(0, 0) {
            assert_eq!(taken, refused(taken.verdict.number, 0));
            assert!(matches!(taken.verdict.number, 40 | 42 | 53));
            assert_eq!(read, taken);
            neither += 1;
            continue;
        }
        let Message { header, words } = taken.message;
        let list = shape(&Words { words, count: header.count });
        if header.message_type == 1 && list != said(0, 0) {
            assert_eq!(read, refused(list.number, list.place), "{bytes:02X?}");
            assert_eq!(wrote(ROOM, &taken.message).0.verdict, list);
            bad += 1;
            continue;
        }
        assert_eq!(read, taken, "{bytes:02X?}");
        both_ways(bytes, taken.message);
        good += 1;
    }
    assert!(good > 10_000 && bad > 5_000 && neither > 1_000, "{good} {bad} {neither}");
}

/// Any bytes at all: every answer is one of the page, and all zeros where it is a refusal.
#[test]
fn any_bytes() {
    let mut seeded = Seeded(5);
    for _ in 0..1 << 17 {
        let mut bytes: [u8; ROOM] = core::array::from_fn(|_| seeded.next() as u8);
        bytes[1] = bytes[1] & 0x7F | (seeded.below(16) as u8) / 15 * 128;
        bytes[0] = bytes[0] & 0xE0 | seeded.below(4) as u8;
        let given = match seeded.below(4) {
            0 => seeded.below(ROOM as u32 + 1) as usize,
            _ => length(bytes[1] / 16 % 8),
        };
        let (read, taken) = (read_message(&bytes[..given]), take_message(&bytes[..given]));
        let header = numbers(u16::from(bytes[0]) + 256 * u16::from(bytes[1]));
        let number = if given < 2 || given != length(header.count) {
            40
        } else if header.extended == 1 {
            42
        } else if header.message_type != 1 && header.message_type != 2 {
            41
        } else if header.message_type == 2 && header.count != 1 {
            53
        } else {
            0
        };
        if number != 0 {
            assert_eq!((read, taken), (refused(number, 0), refused(number, 0)));
            continue;
        }
        let words = core::array::from_fn(|at| {
            let [a, b, c, d] = [2, 3, 4, 5].map(|byte| u32::from(bytes[4 * at + byte]));
            a + 256 * (b + 256 * (c + 256 * d))
        });
        assert_eq!(taken, accepted(Message { header, words }));
        if header.message_type == 2 {
            both_ways(&bytes[..given], taken.message);
        }
    }
}
