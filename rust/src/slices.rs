//! Lists as slices, and slices as lists; the rows of a summary and the words of a message as a slice. Each has seven places; what lies past
//! its count is no part of it.

use crate::flat::{FlatObject, FlatObjects};
use crate::lists::{Objects, Place, Words};
use crate::messages::Message;
use crate::objects::Object;
use crate::refusal::Refusal;
use crate::sinks::{SinkObject, SinkObjects, SinkPlace};
use crate::summaries::Summary;
use crate::verdicts;

const COUNT: Refusal = Refusal::known(verdicts::COUNT);

// The first of the places. A count above seven counts as seven here; the shape check refuses it.
fn counted<T>(places: &[T; 7], count: u8) -> &[T] {
    places.get(..usize::from(count)).unwrap_or(places)
}

// The places from the first on, and how many they are; refused where they are more than seven.
fn placed<T: Copy, P: Copy + Default + From<T>>(from: &[T]) -> Result<([P; 7], u8), Refusal> {
    let mut places = [P::default(); 7];
    for (at, value) in from.iter().enumerate() {
        *places.get_mut(at).ok_or(COUNT)? = P::from(*value);
    }
    Ok((places, from.len() as u8))
}

impl Words {
    /// The words that count. A count above seven, which the shape check refuses, gives all seven.
    #[must_use]
    pub fn as_slice(&self) -> &[u32] {
        counted(&self.words, self.count)
    }
}

impl AsRef<[u32]> for Words {
    fn as_ref(&self) -> &[u32] {
        self.as_slice()
    }
}

/// Refused with 10 where they are more than seven. Nothing else is looked at: `lists::shape` does that, and for a sink
/// `sinks::sink_shape`.
impl TryFrom<&[u32]> for Words {
    type Error = Refusal;

    fn try_from(words: &[u32]) -> Result<Words, Refusal> {
        let (words, count) = placed(words)?;
        Ok(Words { words, count })
    }
}

impl Objects {
    /// The places that count. A count above seven, which `lists::write` refuses, gives all seven.
    #[must_use]
    pub fn as_slice(&self) -> &[Place] {
        counted(&self.places, self.count)
    }
}

impl From<Object> for Place {
    fn from(object: Object) -> Place {
        Place { object }
    }
}

/// Refused with 10 where they are more than seven. Nothing else is looked at: `lists::write` does that.
impl TryFrom<&[Object]> for Objects {
    type Error = Refusal;

    fn try_from(objects: &[Object]) -> Result<Objects, Refusal> {
        let (places, count) = placed(objects)?;
        Ok(Objects { places, count })
    }
}

impl SinkObjects {
    /// The places that count. A count above seven, which `sinks::sink_write` refuses, gives all seven.
    #[must_use]
    pub fn as_slice(&self) -> &[SinkPlace] {
        counted(&self.places, self.count)
    }
}

impl From<SinkObject> for SinkPlace {
    fn from(object: SinkObject) -> SinkPlace {
        SinkPlace { object }
    }
}

/// Refused with 10 where they are more than seven. Nothing else is looked at: `sinks::sink_write` does that.
impl TryFrom<&[SinkObject]> for SinkObjects {
    type Error = Refusal;

    fn try_from(objects: &[SinkObject]) -> Result<SinkObjects, Refusal> {
        let (places, count) = placed(objects)?;
        Ok(SinkObjects { places, count })
    }
}

impl FlatObjects {
    /// The objects that count. A count above seven, which `flat::flat_write` refuses, gives all seven.
    #[must_use]
    pub fn as_slice(&self) -> &[FlatObject] {
        counted(&self.places, self.count)
    }
}

impl Summary {
    /// The rows that count, each by `summaries::LOWEST` and the three beside it. A count above seven, which `summaries::answer_summary`
    /// refuses, gives all seven.
    #[must_use]
    pub fn as_slice(&self) -> &[[u16; 4]] {
        counted(&self.rows, self.count)
    }
}

impl Message {
    /// The words that count. A count above seven, which is too wide for its bits, gives all seven.
    #[must_use]
    pub fn as_slice(&self) -> &[u32] {
        counted(&self.words, self.header.count)
    }
}
