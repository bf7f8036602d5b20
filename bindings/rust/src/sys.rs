// The exported functions as include/jugbowo.h declares them, and a safe function over each: a slice is a pointer and
// a length. Each but the last returns 1, or 0 where a slice for the answer was too short and nothing was changed.
#![allow(dead_code)] // a program uses some of them

// The first word of an answer.
pub const REFUSED: u64 = 0;
pub const SATISFIABLE: u64 = 1;
pub const UNSATISFIABLE: u64 = 2;
pub const UNKNOWN: u64 = 3;
pub const PARSED: u64 = 4;
pub const WRITTEN: u64 = 5;
pub const OPENED: u64 = 6;
pub const ACCEPTED: u64 = 7;
pub const CERTIFIED: u64 = 8;
pub const UNCERTIFIED: u64 = 9;

// Bytes of output that always suffice for the text of a formula.
pub const SHEET_ROOM: usize = 1_846_470;

// A formula with its clauses, as it is lent.
#[derive(Clone, Copy)]
pub struct Formula<'a> {
    pub variables: u32,
    pub clauses: u32,
    pub target: u64,
    pub permutations: u32,
    pub images: &'a [u8],
    pub positive: &'a [u64],
    pub negative: &'a [u64],
}

// A slot as the functions over one slice of slots have it: a visited point, the number of the clause that it
// falsifies, and its depth.
#[derive(Clone, Copy, PartialEq, Eq, Debug)]
#[repr(C)]
pub struct Slot {
    pub point: u64,
    pub falsified: u32,
    pub depth: u32,
}

// Declares an exported function and a safe function over it, argument by argument: a slice is lent as a pointer and a
// length, `formula` as its four numbers and three slices, anything else as it is. In brackets stand what is safe to
// call, the types of the exported function, and what it is passed.
macro_rules! exported {
    ($name:ident = $symbol:ident(formula, $($rest:tt)*) -> $answer:ty) => {
        exported!(@ $name $symbol $answer; [f: &Formula,]
            [u32, u32, u64, u32, *const u8, usize, *const u64, usize, *const u64, usize,]
            [f.variables, f.clauses, f.target, f.permutations, f.images.as_ptr(), f.images.len(), f.positive.as_ptr(),
                f.positive.len(), f.negative.as_ptr(), f.negative.len(),]
            $($rest)*);
    };
    (@ $name:ident $symbol:ident $answer:ty; [$($safe:tt)*] [$($types:tt)*] [$($passed:tt)*]
        $x:ident: &mut [$e:ty], $($rest:tt)*) => {
        exported!(@ $name $symbol $answer; [$($safe)* $x: &mut [$e],] [$($types)* *mut $e, usize,]
            [$($passed)* $x.as_mut_ptr(), $x.len(),] $($rest)*);
    };
    (@ $name:ident $symbol:ident $answer:ty; [$($safe:tt)*] [$($types:tt)*] [$($passed:tt)*]
        $x:ident: &[$e:ty], $($rest:tt)*) => {
        exported!(@ $name $symbol $answer; [$($safe)* $x: &[$e],] [$($types)* *const $e, usize,]
            [$($passed)* $x.as_ptr(), $x.len(),] $($rest)*);
    };
    (@ $name:ident $symbol:ident $answer:ty; [$($safe:tt)*] [$($types:tt)*] [$($passed:tt)*]
        $x:ident: $e:ty, $($rest:tt)*) => {
        exported!(@ $name $symbol $answer; [$($safe)* $x: $e,] [$($types)* $e,] [$($passed)* $x,] $($rest)*);
    };
    (@ $name:ident $symbol:ident $answer:ty; [$($safe:tt)*] [$($type:ty,)*] [$($passed:tt)*]) => {
        pub fn $name($($safe)*) -> $answer {
            extern "C" {
                fn $symbol($(_: $type,)*) -> $answer;
            }
            unsafe { $symbol($($passed)*) }
        }
    };
    ($name:ident = $symbol:ident($($rest:tt)*) -> $answer:ty) => {
        exported!(@ $name $symbol $answer; [] [] [] $($rest)*);
    };
}

// Reads a text into two lent clause slices; `reply` takes the answer, and unless the text is refused `numbers` and
// `images` take the formula.
exported!(read = jugbowo_read(text: &[u8], positive: &mut [u64], negative: &mut [u64], numbers: &mut [u64],
    images: &mut [u8], reply: &mut [u64],) -> u32);

// Writes a formula and its clauses as a text, at the front of `out`. With `SHEET_ROOM` bytes or more it is made in one
// pass, with fewer it is measured first.
exported!(write_sheet = jugbowo_write_sheet(formula, out: &mut [u8], reply: &mut [u64],) -> u32);

// Searches over three lent slices.
exported!(search = jugbowo_search(formula, points: &mut [u64], falsified: &mut [u32], depths: &mut [u32],
    reply: &mut [u64],) -> u32);

// Writes the certificate of the first `filled` slots.
exported!(write = jugbowo_write(formula, points: &[u64], falsified: &[u32], depths: &[u32], filled: u32,
    out: &mut [u8], reply: &mut [u64],) -> u32);

// The same two over one lent slice of slots; they stand in a library of their own, so that a program that calls them
// links slot_exports too.
exported!(search_slots = jugbowo_search_slots(formula, slots: &mut [Slot], reply: &mut [u64],) -> u32);

exported!(write_slots = jugbowo_write_slots(formula, slots: &[Slot], filled: u32, out: &mut [u8],
    reply: &mut [u64],) -> u32);

// Checks a certificate.
exported!(check = jugbowo_check(formula, file: &[u8], reply: &mut [u64],) -> u32);

// Reads a certificate's contents without checking it.
exported!(open = jugbowo_open(file: &[u8], contents: &mut [u64], reply: &mut [u64],) -> u32);

// Where permutation j of a body sends variable i + 1, both from 0.
exported!(image_at = jugbowo_image_at(body: &[u8], n: usize, j: usize, i: usize, reply: &mut [u64],) -> u32);

// Point i of a body, from 0.
exported!(point_at = jugbowo_point_at(body: &[u8], i: usize, reply: &mut [u64],) -> u32);

// Clause number i of a body, from 0.
exported!(number_at = jugbowo_number_at(body: &[u8], i: usize, reply: &mut [u64],) -> u32);

// Reads, searches, writes and checks in one call.
exported!(solve = jugbowo_solve(text: &[u8], points: &mut [u64], falsified: &mut [u32], depths: &mut [u32],
    out: &mut [u8], reply: &mut [u64],) -> u32);

// Puts what the program `nearest` prints for a text to the front of `out`, and returns how many bytes that is. Where
// `out` has fewer it is unchanged.
exported!(nearest = jugbowo_nearest(text: &[u8], out: &mut [u8],) -> usize);
