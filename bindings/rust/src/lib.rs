//! A style sheet is a CNF formula of at most 64 yes/no variables with a target point. This library hands back the
//! satisfying point nearest to the target, of several that are as near the smallest as a number ([`search`]), or a
//! certificate that no point satisfies the clauses, or says that it had no room to tell. Its answers are proved; what
//! each promise says is in the repository's README. These functions only lend memory to it.
//!
//! ```
//! use jugbowo::{solve, Slots, Solution};
//!
//! let sheet = b"p cnf 3 2\nc wish 000\n1 2 0\n-1 3 0\n";
//! let answer = solve(sheet, &mut Slots::new(4096)).unwrap();
//! assert_eq!(answer, Solution::Satisfiable { point: 0b010, distance: 1, filled: 3 });
//! ```
mod sys;

use std::fmt;

/// A numbered refusal and its place; docs/REFUSALS.md says what each number means and what to do.
///
/// ```
/// let refusal = jugbowo::read(b"p cnf 0 0\n").unwrap_err();
/// let cause = "the number of variables is not 1 to 64, or that of clauses is over 4,096";
/// assert_eq!(refusal.to_string(), format!("refusal 3 at 0: {cause}"));
/// ```
#[derive(Clone, Copy, PartialEq, Eq, Debug)]
pub struct Refusal {
    pub number: u32,
    pub place: u64,
}

impl fmt::Display for Refusal {
    fn fmt(&self, f: &mut fmt::Formatter<'_>) -> fmt::Result {
        let cause = match self.number {
            1 => "the text is too long",
            2 => "the problem line is missing or malformed",
            3 => "the number of variables is not 1 to 64, or that of clauses is over 4,096",
            4 => "a clause slice is too short",
            5 => "a malformed word",
            6 => "a variable above the number of variables",
            7 => "words behind the last clause, or too few clauses",
            8 => "a malformed or second target line",
            9 => "a malformed or seventeenth permutation line",
            10 => "sizes outside their limits, clause slices of another length, or a bit above the last variable",
            11 => "more than 16 permutations, or one that does not have each of 1 to n once",
            12 => "a permutation that does not keep the clauses",
            13 => "no slot is lent",
            14 => "contents or length of the certificate are wrong",
            15 => "a certificate for another number of variables or clauses",
            16 => "no point, too many, one with a bit above the last variable, or one repeated",
            17 => "a clause number out of range, or of a clause that its point satisfies",
            18 => "a flip that is not covered",
            19 => "the output is too short",
            _ => "an unknown number",
        };
        write!(f, "refusal {} at {}: {cause}", self.number, self.place)
    }
}

impl std::error::Error for Refusal {}

/// A clause: the variables listed as wanted yes and as wanted no, bit i for variable i + 1.
#[derive(Clone, Copy, PartialEq, Eq, Debug)]
pub struct Clause {
    pub positive: u64,
    pub negative: u64,
}

impl Clause {
    /// From literals as DIMACS has them.
    ///
    /// ```
    /// assert_eq!(jugbowo::Clause::of(&[1, -3]), jugbowo::Clause { positive: 0b001, negative: 0b100 });
    /// ```
    ///
    /// # Panics
    /// If a literal is 0 or its variable above 64.
    pub fn of(literals: &[i32]) -> Clause {
        let mut clause = Clause { positive: 0, negative: 0 };
        for &l in literals {
            assert!(l != 0 && l.unsigned_abs() <= 64, "a literal is a variable of 1 to 64, with a sign");
            let side = if l > 0 { &mut clause.positive } else { &mut clause.negative };
            *side |= 1 << (l.unsigned_abs() - 1);
        }
        clause
    }
}

/// A formula with its target and its permutations; the image of variable 1 comes first in each.
#[derive(Clone, PartialEq, Eq, Debug)]
pub struct Formula {
    pub variables: u32,
    pub target: u64,
    pub permutations: Vec<Vec<u8>>,
    pub clauses: Vec<Clause>,
}

impl Formula {
    fn lent(&self) -> Lent {
        Lent {
            images: self.permutations.concat(),
            positive: self.clauses.iter().map(|c| c.positive).collect(),
            negative: self.clauses.iter().map(|c| c.negative).collect(),
        }
    }
}

// A formula's bytes and clauses in the form in which they are lent.
struct Lent {
    images: Vec<u8>,
    positive: Vec<u64>,
    negative: Vec<u64>,
}

/// Room for a search: as many slots as the shortest of the three has places, at most 65,536 of them.
#[derive(Clone, PartialEq, Eq, Debug)]
pub struct Slots {
    pub points: Vec<u64>,
    pub falsified: Vec<u32>,
    pub depths: Vec<u32>,
}

impl Slots {
    pub fn new(count: usize) -> Slots {
        Slots { points: vec![0; count], falsified: vec![0; count], depths: vec![0; count] }
    }
}

/// What a search finds. With `Unsatisfiable` the first `filled` slots are a stable set, of which [`certificate`]
/// makes a file. With `Unknown` every satisfying point differs from the target in at least `bound` variables: the depth
/// that was being processed plus one, at most 65,536.
#[derive(Clone, Copy, PartialEq, Eq, Debug)]
pub enum Outcome {
    Satisfiable { point: u64, distance: u32, filled: usize },
    Unsatisfiable { filled: usize },
    Unknown { bound: u32, filled: usize },
}

/// What [`solve`] finds; a certificate has been checked.
#[derive(Clone, PartialEq, Eq, Debug)]
pub enum Solution {
    Satisfiable { point: u64, distance: u32, filled: usize },
    Unsatisfiable { certificate: Vec<u8>, filled: usize },
    Unknown { bound: u32, filled: usize },
}

const WORDS: usize = 4;

fn refusal(reply: &[u64; WORDS]) -> Refusal {
    Refusal { number: reply[1] as u32, place: reply[2] }
}

/// Reads a DIMACS text, up to its end or to a line that begins with a percent sign and otherwise holds blanks, as the
/// files of SATLIB have one.
///
/// ```
/// let f = jugbowo::read(b"p cnf 2 1\nc wish 01\n1 -2 0\n").unwrap();
/// assert_eq!((f.variables, f.target, f.clauses.len()), (2, 0b10, 1));
/// let refusal = jugbowo::read(b"p cnf 65 0\n").unwrap_err();
/// assert_eq!((refusal.number, refusal.place), (3, 0));
/// assert_eq!(jugbowo::read(b"p cnf 2 1\n1 -2 0\n%\n0\n").unwrap().clauses.len(), 1);
/// let refusal = jugbowo::read(b"p cnf 2 2\n1 -2 0\n%\n0\n").unwrap_err();
/// assert_eq!((refusal.number, refusal.place), (7, 17));
/// ```
pub fn read(text: &[u8]) -> Result<Formula, Refusal> {
    let (mut positive, mut negative) = (vec![0; 4096], vec![0; 4096]);
    let (mut numbers, mut images, mut reply) = ([0; WORDS], [0; 1024], [0; WORDS]);
    sys::read(text, &mut positive, &mut negative, &mut numbers, &mut images, &mut reply);
    if reply[0] != sys::PARSED {
        return Err(refusal(&reply));
    }
    let n = numbers[0] as usize;
    let clauses = positive.iter().zip(&negative).take(numbers[1] as usize);
    Ok(Formula {
        variables: numbers[0] as u32,
        target: numbers[2],
        permutations: images.chunks(n).take(numbers[3] as usize).map(<[u8]>::to_vec).collect(),
        clauses: clauses.map(|(&positive, &negative)| Clause { positive, negative }).collect(),
    })
}

/// Room that always suffices for the text of a formula, in bytes: [`write_sheet_to`] makes the text in one pass where
/// as many or more are lent, and otherwise measures it first.
pub const SHEET_ROOM: usize = sys::SHEET_ROOM;

/// The text of a formula, which [`read`] reads back: the problem line, the wish line, a line for each permutation, then
/// a line for each clause, variables ascending. Refused by 10 or 11 alone: whether the permutations keep the clauses is
/// not tested. A text of more than 1,048,576 bytes is written all the same, but refused by 1 when it is read.
///
/// ```
/// use jugbowo::{read, write_sheet};
/// let mut f = read(b"p cnf 3 2\nc a remark\n 2 1 0 -1\n3 0\n").unwrap();
/// f.target = 0b110;
/// f.permutations.push(vec![1, 3, 2]);
/// let text = write_sheet(&f).unwrap();
/// assert_eq!(text, b"p cnf 3 2\nc wish 011\nc exch 1 3 2\n1 2 0\n-1 3 0\n");
/// assert_eq!(read(&text), Ok(f));
/// ```
pub fn write_sheet(f: &Formula) -> Result<Vec<u8>, Refusal> {
    let mut out = vec![0; SHEET_ROOM];
    let length = write_sheet_to(f, &mut out)?;
    Ok(out[..length].to_vec())
}

/// The same text, put to the front of lent bytes; its length. Where it does not fit it is refused by 19, with the
/// length needed as the place, and nothing has changed.
///
/// ```
/// use jugbowo::{read, write_sheet_to};
/// let f = read(b"p cnf 1 1\n-1 0").unwrap();
/// let mut out = [b'.'; 26];
/// assert_eq!(write_sheet_to(&f, &mut out), Ok(24));
/// assert_eq!(&out, b"p cnf 1 1\nc wish 0\n-1 0\n..");
/// let refusal = write_sheet_to(&f, &mut out[..23]).unwrap_err();
/// assert_eq!((refusal.number, refusal.place), (19, 24));
/// ```
pub fn write_sheet_to(f: &Formula, out: &mut [u8]) -> Result<usize, Refusal> {
    let mut reply = [0; WORDS];
    let lent = f.lent();
    sys::write_sheet(&by_value(f, &lent), out, &mut reply);
    if reply[0] == sys::WRITTEN {
        Ok(reply[1] as usize)
    } else {
        Err(refusal(&reply))
    }
}

/// Searches from the target, with the slots lent.
///
/// ```
/// use jugbowo::{read, search, Outcome, Slots};
/// let f = read(b"p cnf 1 2\n1 0\n-1 0\n").unwrap();
/// assert_eq!(search(&f, &mut Slots::new(2)), Ok(Outcome::Unsatisfiable { filled: 2 }));
/// assert_eq!(search(&f, &mut Slots::new(1)), Ok(Outcome::Unknown { bound: 1, filled: 1 }));
/// ```
///
/// Of the nearest satisfying points in the slots the one smallest as a number is handed back. Without permutations it
/// is the smallest of all nearest satisfying points, and so the same in whichever order the clauses stand. How many
/// slots are filled, and with that whether there is room, depends on this order, and with permutations the point does
/// too.
///
/// ```
/// use jugbowo::{read, search, Outcome, Slots};
/// let mut f = read(b"p cnf 3 2\nc wish 111\n-1 -2 -3 0\n-1 -2 0\n").unwrap();
/// assert_eq!(search(&f, &mut Slots::new(8)), Ok(Outcome::Satisfiable { point: 0b101, distance: 1, filled: 4 }));
/// f.clauses.reverse();
/// assert_eq!(search(&f, &mut Slots::new(8)), Ok(Outcome::Satisfiable { point: 0b101, distance: 1, filled: 3 }));
/// ```
pub fn search(f: &Formula, slots: &mut Slots) -> Result<Outcome, Refusal> {
    let mut reply = [0; WORDS];
    let lent = f.lent();
    sys::search(&by_value(f, &lent), &mut slots.points, &mut slots.falsified, &mut slots.depths, &mut reply);
    match reply[0] {
        sys::SATISFIABLE => {
            Ok(Outcome::Satisfiable { point: reply[1], distance: reply[2] as u32, filled: reply[3] as usize })
        }
        sys::UNSATISFIABLE => Ok(Outcome::Unsatisfiable { filled: reply[1] as usize }),
        sys::UNKNOWN => Ok(Outcome::Unknown { bound: reply[1] as u32, filled: reply[2] as usize }),
        _ => Err(refusal(&reply)),
    }
}

fn by_value<'a>(f: &Formula, lent: &'a Lent) -> sys::Formula<'a> {
    sys::Formula {
        variables: f.variables,
        clauses: f.clauses.len() as u32,
        target: f.target,
        permutations: f.permutations.len() as u32,
        images: &lent.images,
        positive: &lent.positive,
        negative: &lent.negative,
    }
}

/// The certificate of the first `filled` slots, as a search left them.
///
/// ```
/// use jugbowo::{certificate, check, read, search, Slots};
/// let f = read(b"p cnf 1 2\n1 0\n-1 0\n").unwrap();
/// let mut slots = Slots::new(2);
/// search(&f, &mut slots).unwrap();
/// let file = certificate(&f, &slots, 2).unwrap();
/// assert_eq!(file.len(), 32 + 2 * 12);
/// assert_eq!(check(&f, &file), Ok(()));
/// assert_eq!(check(&f, &file[1..]).unwrap_err().number, 14);
/// ```
pub fn certificate(f: &Formula, slots: &Slots, filled: usize) -> Result<Vec<u8>, Refusal> {
    let lent = f.lent();
    let mut out = Vec::new();
    loop {
        let mut reply = [0; WORDS];
        sys::write(
            &by_value(f, &lent),
            &slots.points,
            &slots.falsified,
            &slots.depths,
            u32::try_from(filled).unwrap_or(u32::MAX),
            &mut out,
            &mut reply,
        );
        let refused = refusal(&reply);
        match (reply[0], refused.number) {
            (sys::WRITTEN, _) => return Ok(out),
            (_, 19) => out = vec![0; refused.place as usize],
            _ => return Err(refused),
        }
    }
}

/// Whether a file is a certificate that no point satisfies the formula's clauses. The formula's target and
/// permutations do not matter.
pub fn check(f: &Formula, file: &[u8]) -> Result<(), Refusal> {
    let mut reply = [0; WORDS];
    let lent = f.lent();
    sys::check(&by_value(f, &lent), file, &mut reply);
    if reply[0] == sys::ACCEPTED {
        Ok(())
    } else {
        Err(refusal(&reply))
    }
}

/// Reads a text, searches with the slots lent and, where no point satisfies the clauses, has the certificate written
/// and checked.
///
/// ```
/// use jugbowo::{check, read, solve, Slots, Solution};
/// let clash = b"p cnf 2 4\nc exch 2 1\n1 2 0\n-1 2 0\n1 -2 0\n-1 -2 0\n";
/// let Ok(Solution::Unsatisfiable { certificate, filled }) = solve(clash, &mut Slots::new(16)) else { panic!() };
/// assert_eq!((certificate.len(), filled), (70, 3));
/// assert_eq!(check(&read(clash).unwrap(), &certificate), Ok(()));
/// ```
pub fn solve(text: &[u8], slots: &mut Slots) -> Result<Solution, Refusal> {
    let most = slots.points.len().min(65536);
    let mut out = vec![0; 32 + 1024 + 12 * most];
    let mut reply = [0; WORDS];
    sys::solve(text, &mut slots.points, &mut slots.falsified, &mut slots.depths, &mut out, &mut reply);
    match reply[0] {
        sys::SATISFIABLE => {
            Ok(Solution::Satisfiable { point: reply[1], distance: reply[2] as u32, filled: reply[3] as usize })
        }
        sys::UNKNOWN => Ok(Solution::Unknown { bound: reply[1] as u32, filled: reply[2] as usize }),
        sys::CERTIFIED => {
            out.truncate(reply[2] as usize);
            Ok(Solution::Unsatisfiable { certificate: out, filled: reply[1] as usize })
        }
        _ => Err(refusal(&reply)),
    }
}
