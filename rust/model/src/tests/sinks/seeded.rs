//! Whole sink lists from a fixed seed, against the page as `mod.rs` tells it, and both ways round.

use super::*;

impl Seeded {
    /// A list in order, mostly within its bounds.
    fn sink_list(&mut self) -> Words {
        let count = 1 + self.below(7) as u8;
        let mut list = Words { words: [0; 7], count };
        list.words[0] = FIVE | self.below(128) << 23 | self.current(100);
        let (mut kind, mut volts) = (0, 100);
        for at in 1..usize::from(count) {
            if self.below(2) == 0 && kind < 3 {
                kind += 1 + self.below(3 - kind);
                volts = self.below(30);
            }
            list.words[at] = self.sink_word(kind, &mut volts);
        }
        list
    }

    /// The next word of a kind; `volts` is what must not fall.
    fn sink_word(&mut self, kind: u32, volts: &mut u32) -> u32 {
        *volts += self.below(40);
        match kind {
            0 => {
                *volts += 1;
                steps((*volts).min(1023), self.current(*volts))
            }
            1 => battery(*volts + self.below(100), *volts, self.below(420)),
            2 => {
                let max = *volts + self.below(100);
                variable(max, *volts, self.current(max))
            }
            _ => {
                let named = [110, 160, 210];
                let max = if self.below(2) == 0 { named[self.below(3) as usize] } else { *volts };
                *volts = (*volts).max(max).min(230);
                let min = if *volts >= 50 { 50 } else { self.below(*volts + 1) };
                prog(*volts, min, self.below(128))
            }
        }
    }

    /// In 10 mA, near 100 W or far below it, within the field.
    fn current(&mut self, volts: u32) -> u32 {
        let most = (200_000 / volts.max(1)).min(1023);
        match self.below(8) {
            0 => most,
            1 => (most + 1).min(1023),
            2 => self.below(most + 1),
            _ => self.below(most / 4 + 1),
        }
    }

    /// A list with a word that is another one or has a bit flipped, or with another count.
    fn spoilt(&mut self) -> Words {
        let mut list = self.sink_list();
        let (at, other) = (self.below(7) as usize, self.below(7) as usize);
        match self.below(8) {
            0 | 1 => list.words[at] ^= 1 << self.below(32),
            2 => list.words[at] = list.words[other],
            3 => list.words[at] = self.next(),
            4 => list.words.swap(at, other),
            5 => list.count = self.below(10) as u8,
            _ => {}
        }
        list
    }
}

/// "Reading a sink list whose shape passes, and writing what was read, gives the same words".
#[test]
fn seeded_lists() {
    let mut seeded = Seeded(21);
    let mut seen = [0u32; 64];
    for _ in 0..1 << 18 {
        let list = seeded.spoilt();
        let shape = page_shape(&list);
        seen[usize::from(shape.number)] += 1;
        if shape == said(0, 0) {
            both_ways(&list);
        } else {
            refused(shape.number, shape.place, &list);
        }
        let rating = seeded.below(203) as u16;
        let check = page_check(rating, &list);
        assert_eq!(sink_check(rating, &list), check, "{rating} {list:08X?}");
        seen[usize::from(check.number)] += u32::from(matches!(check.number, 1 | 43));
    }
    for number in [0, 1, 10, 11, 12, 13, 14, 15, 16, 43] {
        assert!(seen[number] > 1000, "{number} {}", seen[number]);
    }
    assert_eq!(seen[17], 0);
}

/// "and the other way round for objects that can be written": from objects, as an enum and in C's
/// struct, with stale fields and with kinds that are none.
#[test]
fn seeded_objects() {
    let mut seeded = Seeded(22);
    let (mut good, mut bad) = (0, 0);
    for _ in 0..1 << 17 {
        let list = seeded.sink_list();
        let count = usize::from(list.count);
        let mut objects = SinkObjects { places: [SINK_NOTHING; 7], count: list.count };
        for (object, &word) in objects.places.iter_mut().zip(&list.words[..count]) {
            *object = page_object(word).unwrap();
        }
        let written = sink_write(&objects);
        let mut flat = FlatObjects { places: [FlatObject::default(); 7], count: list.count };
        for (at, object) in objects.places.iter().enumerate() {
            flat.places[at] = stale(&mut seeded, object);
        }
        assert_eq!(sink_flat_write(&flat), written, "{flat:?}");
        let shape = page_shape(&list);
        if shape != said(0, 0) {
            assert_eq!(written, Listing { verdict: shape, list: Words::default() });
            bad += 1;
        } else {
            assert_eq!(written, Listing { verdict: shape, list });
            assert_eq!(sink_read(&written.list), SinkReading { verdict: shape, list: objects });
            good += 1;
        }
        // One object of no kind stands as a word of kind 1111b.
        let at = seeded.below(count as u32) as usize;
        flat.places[at].kind = 4 + seeded.below(252) as u8;
        let mut words = list;
        words.words[at] = 0xF000_0000;
        let expected = Listing { verdict: page_shape(&words), list: Words::default() };
        assert_eq!(sink_flat_write(&flat), expected, "{flat:?}");
    }
    assert!(good > 10_000 && bad > 10_000, "{good} {bad}");
}

/// The object in C's struct, with anything in the fields that it does not have.
fn stale(seeded: &mut Seeded, object: &SinkObject) -> FlatObject {
    let junk = seeded.next() as u16;
    let byte = seeded.next() as u8;
    let mut flat = FlatObject {
        kind: 0,
        flags: byte,
        peak: byte,
        limited: byte,
        volts: junk,
        max: junk,
        min: junk,
        power: junk,
        current: junk,
        max100: junk,
        min100: junk,
        current50: junk,
        low: junk,
        high: junk,
    };
    let own = page_flat(object);
    flat.kind = own.kind;
    match own.kind {
        0 => (flat.flags, flat.volts, flat.current) = (own.flags, own.volts, own.current),
        1 => (flat.max, flat.min, flat.power) = (own.max, own.min, own.power),
        2 => (flat.max, flat.min, flat.current) = (own.max, own.min, own.current),
        _ => (flat.max100, flat.min100, flat.current50) = (own.max100, own.min100, own.current50),
    }
    flat
}
