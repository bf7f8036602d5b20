// Between the library and the implementation that it is compared with: a sheet in the form in which the library is
// lent it, and a reply in the words that it tells.
#![allow(dead_code)] // a program uses some of them
use crate::{library, reference};
use reference::Reply;

pub fn lent(s: &reference::Sheet) -> library::Sheet {
    library::Sheet {
        variables: s.names,
        clauses: s.rules,
        target: s.wish,
        permutations: s.exchanges,
        images: s.bytes.clone(),
        positive: s.yes.clone(),
        negative: s.no.clone(),
    }
}

// The words of a reply as the exported functions tell it.
pub fn words(reply: &Reply) -> Vec<u64> {
    match *reply {
        Reply::Refused(number, place) => vec![0, u64::from(number), place as u64, 0],
        Reply::Met { choice, changes, slots } => vec![1, choice, u64::from(changes), slots as u64],
        Reply::Unmet { slots } => vec![2, slots as u64, 0, 0],
        Reply::NoRoom { least, slots } => vec![3, u64::from(least), slots as u64, 0],
    }
}
