// Between the library and the baseline: a sheet in the form in which the baseline takes it, and an answer of the
// baseline in the words that the library tells.
#![allow(dead_code)] // a program uses some of them
use crate::baseline::{Answer, Clauses, Formula, Refusal};
use crate::library::{Sheet, REFUSED, SATISFIABLE, UNKNOWN, UNSATISFIABLE};

pub fn formula(s: &Sheet) -> Formula {
    Formula {
        target: s.target,
        variables: s.variables,
        clauses: s.clauses,
        permutations: s.permutations,
        images: s.images[..].try_into().expect("1,024 images"),
    }
}

pub fn clauses(s: &Sheet) -> Clauses<'_> {
    Clauses { positive: &s.positive, negative: &s.negative }
}

pub fn words<T>(answer: &Result<T, Refusal>, told: impl Fn(&T) -> [u64; 4]) -> [u64; 4] {
    match answer {
        Ok(answer) => told(answer),
        Err((number, place)) => [REFUSED, *number, *place, 0],
    }
}

// The words of a search that was not refused.
pub fn told(answer: &Answer) -> [u64; 4] {
    match *answer {
        Answer::Satisfiable { point, changes, filled } => [SATISFIABLE, point, changes.into(), filled as u64],
        Answer::Unsatisfiable { filled } => [UNSATISFIABLE, filled as u64, 0, 0],
        Answer::Unknown { bound, filled } => [UNKNOWN, bound.into(), filled as u64, 0],
    }
}
