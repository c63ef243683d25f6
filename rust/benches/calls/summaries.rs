//! Seeded requests as a summary takes them. The lists, the words and what is made of them come through the wrappers, as in `lists`.

use crate::hardest;
use crate::inputs::{many, Dice};
use crate::lists::good_list;
use crate::objects::request;
use crate::wrappers::library::{flat_take_request, summarize, take_request};
use arinduleu::flat::FlatRequest;
use arinduleu::lists::Words;
use arinduleu::summaries::{QuickAsked, Summary, TakenRequest};

/// A request word with the list that it came back to, and all that firmware has made of these before it answers.
#[derive(Clone, Copy)]
pub struct Asked {
    pub list: Words,
    pub word: u32,
    pub summary: Summary,
    pub request: QuickAsked,
    pub flat: FlatRequest,
}

/// None for a request that only the list can answer.
pub fn asked(list: Words, word: u32) -> Option<Asked> {
    let Ok(TakenRequest::Quick(request)) = take_request(list, word) else {
        return None;
    };
    Some(Asked {
        list,
        word,
        summary: summarize(list).summary,
        request,
        flat: flat_take_request(list, word).request,
    })
}

fn one(dice: &mut Dice) -> Asked {
    loop {
        let list = good_list(dice);
        let word = request(dice, list);
        if let Some(asked) = asked(list, word) {
            return asked;
        }
    }
}

/// The lists pass; one word in four has a bit turned, and some of these are refused.
pub fn all_asked() -> Vec<Asked> {
    many(40, one)
}

/// The same on lists of seven objects, of every mix, and all that an object has.
pub fn of_seven() -> Vec<Asked> {
    let seven = hardest::answers()
        .into_iter()
        .filter(|(list, _)| list.count == 7);
    seven.filter_map(|(list, word)| asked(list, word)).collect()
}

/// One in sixteen has a limit, a count or a position of any number.
fn upset(dice: &mut Dice, asked: &mut Asked) {
    if !dice.one_in(16) {
        return;
    }
    match dice.below(3) {
        0 => {
            let row = &mut asked.summary.rows[dice.below(7) as usize];
            row[dice.below(4) as usize] = dice.any() as u16;
        }
        1 => asked.summary.count = dice.any() as u8,
        _ => {
            asked.request.position = dice.any() as u8;
            asked.flat.position = asked.request.position;
        }
    }
}

fn some_upset() -> Vec<Asked> {
    many(41, |dice| {
        let mut asked = one(dice);
        upset(dice, &mut asked);
        asked
    })
}

pub fn answers() -> Vec<(Summary, QuickAsked)> {
    let parts = |a: Asked| (a.summary, a.request);
    some_upset().into_iter().map(parts).collect()
}

/// And one in sixteen of no kind that a summary answers.
pub fn flat_answers() -> Vec<(Summary, FlatRequest)> {
    let mut dice = Dice::new(42);
    let mut parts = |a: Asked| {
        let mut flat = a.flat;
        if dice.one_in(16) {
            flat.kind = [1, 9][dice.below(2) as usize];
        }
        (a.summary, flat)
    };
    some_upset().into_iter().map(&mut parts).collect()
}
