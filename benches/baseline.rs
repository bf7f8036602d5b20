// An implementation of document 01, with the requests of document 02 that are in, in plain Rust for the library to be
// timed beside, written for speed: one pass over a text, points in the standard library's hash set as it comes, clauses
// tried eight at a time, permutations as rotations of masks, images made only where a flip itself is not found, texts
// measured by counting bits and written by words spelled beforehand. compare.rs and writing.rs stop where its answers
// are not the library's.
#![allow(dead_code)] // a program uses some of them
use std::collections::HashSet;
use std::hash::{BuildHasherDefault, Hasher};
use std::io::BufRead;

const VARIABLES: u32 = 64;
const CLAUSES: u32 = 4096;
const PERMUTATIONS: usize = 16;
const SLOTS: usize = 65536;
const TEXT: usize = 1 << 20;

// A refusal's number, and the place beside it.
pub type Refusal = (u64, u64);

// A formula by value; its clauses stand in two slices.
#[derive(Clone)]
pub struct Formula {
    pub target: u64,
    pub variables: u32,
    pub clauses: u32,
    pub permutations: u32,
    pub images: [u8; 1024],
}

// The sets of positive and of negative literals, clause by clause.
#[derive(Clone, Copy)]
pub struct Clauses<'a> {
    pub positive: &'a [u64],
    pub negative: &'a [u64],
}

#[derive(Clone, Copy, PartialEq, Debug)]
pub enum Answer {
    Satisfiable { point: u64, changes: u32, filled: usize },
    Unsatisfiable { filled: usize },
    Unknown { bound: u32, filled: usize },
}

// ---- the reader

fn blank(byte: u8) -> bool {
    matches!(byte, b' ' | b'\t' | b'\r')
}

// The line that begins at a place, without its byte 10. A byte slice is skipped with the system's own search for a
// byte.
fn line(text: &[u8], at: usize) -> &[u8] {
    let mut behind = &text[at..];
    let length = behind.skip_until(b'\n').expect("a slice can be read");
    let line = &text[at..at + length];
    line.strip_suffix(b"\n").unwrap_or(line)
}

fn words(line: &[u8]) -> impl Iterator<Item = &[u8]> {
    line.split(|&byte| blank(byte)).filter(|word| !word.is_empty())
}

// One to four digits.
fn number(word: &[u8]) -> Option<u32> {
    let short = (1..=4).contains(&word.len()) && word.iter().all(u8::is_ascii_digit);
    short.then(|| word.iter().fold(0, |value, digit| value * 10 + u32::from(digit - b'0')))
}

fn problem(line: &[u8]) -> Option<(u32, u32)> {
    let mut found = words(line.strip_prefix(b"p")?);
    if !blank(*line.get(1)?) || found.next()? != b"cnf" {
        return None;
    }
    let sizes = (number(found.next()?)?, number(found.next()?)?);
    found.next().is_none().then_some(sizes)
}

fn target(digits: &[u8], n: usize) -> Option<u64> {
    let (digits, behind) = digits.split_at_checked(n)?;
    let sound = digits.iter().all(|digit| matches!(digit, b'0' | b'1')) && behind.iter().all(|&byte| blank(byte));
    sound.then(|| digits.iter().rev().fold(0, |bits, digit| bits << 1 | u64::from(digit & 1)))
}

// Fills the images of a permutation of n variables from the words of its line.
fn permutation(listed: &[u8], images: &mut [u8]) -> Option<()> {
    if blank(*listed.first()?) {
        return None;
    }
    let (mut found, mut left) = (0u64, images.iter_mut());
    for word in words(listed) {
        let image = number(word)?;
        *left.next()? = image as u8;
        found |= 1u64.checked_shl(image.checked_sub(1)?)?;
    }
    (left.next().is_none() && found == u64::MAX >> (64 - images.len())).then_some(())
}

// The problem line's two numbers, and where the line behind it begins.
fn sizes(text: &[u8], room: usize) -> Result<(u32, u32, usize), Refusal> {
    let mut at = 0;
    while at < text.len() {
        let line = line(text, at);
        if line.first() != Some(&b'c') && !line.iter().all(|&byte| blank(byte)) {
            let (variables, clauses) = problem(line).ok_or((2, at as u64))?;
            return if !(1..=VARIABLES).contains(&variables) || clauses > CLAUSES {
                Err((3, at as u64))
            } else if room < clauses as usize {
                Err((4, at as u64))
            } else {
                Ok((variables, clauses, at + line.len() + 1))
            };
        }
        at += line.len() + 1;
    }
    Err((2, text.len() as u64))
}

// A comment behind the problem line. `aimed` says whether there was a target line.
fn comment(line: &[u8], at: usize, formula: &mut Formula, aimed: &mut bool) -> Result<(), Refusal> {
    let n = formula.variables as usize;
    if let Some(digits) = line.strip_prefix(b"c wish ") {
        formula.target = target(digits, n).filter(|_| !*aimed).ok_or((8, at as u64))?;
        *aimed = true;
    } else if let Some(listed) = line.strip_prefix(b"c exch ") {
        let count = formula.permutations as usize;
        let room = (count < PERMUTATIONS).then(|| &mut formula.images[count * n..][..n]);
        room.and_then(|images| permutation(listed, images)).ok_or((9, at as u64))?;
        formula.permutations += 1;
    }
    Ok(())
}

// The clauses from the line behind the problem line on; refusals 5 to 9. A literal is read where it stands, with the
// byte that parts it from the next.
fn body(text: &[u8], mut at: usize, formula: &mut Formula) -> Result<Vec<(u64, u64)>, Refusal> {
    let (variables, count) = (formula.variables, formula.clauses as usize);
    let mut clauses = Vec::with_capacity(count);
    let (mut aimed, mut open) = (false, (0, 0));
    while at < text.len() {
        if text[at] == b'c' {
            let line = line(text, at);
            comment(line, at, formula, &mut aimed)?;
            at += line.len() + 1;
            continue;
        }
        if text[at] == b'%' && line(text, at)[1..].iter().all(|&byte| blank(byte)) {
            break;
        }
        while let Some(&byte) = text.get(at) {
            if blank(byte) {
                at += 1;
                continue;
            }
            if byte == b'\n' {
                break;
            }
            if clauses.len() == count {
                return Err((7, at as u64));
            }
            let minus = byte == b'-';
            let first = at + usize::from(minus);
            let digit = |i: usize| text.get(i).map(|byte| byte.wrapping_sub(b'0')).filter(|&d| d < 10 && i < first + 4);
            let (mut value, mut end) = (0, first);
            while let Some(digit) = digit(end) {
                value = value * 10 + u32::from(digit);
                end += 1;
            }
            let behind = *text.get(end).unwrap_or(&b'\n');
            if end == first || !(blank(behind) || behind == b'\n') || (minus && value == 0) {
                return Err((5, at as u64));
            }
            if value > variables {
                return Err((6, at as u64));
            }
            if value == 0 {
                clauses.push(std::mem::take(&mut open));
            } else if minus {
                open.1 |= 1 << (value - 1);
            } else {
                open.0 |= 1 << (value - 1);
            }
            at = end;
            if behind == b'\n' {
                break;
            }
            at += 1;
        }
        at += 1;
    }
    Some(clauses).filter(|clauses| clauses.len() == count).ok_or((7, at.min(text.len()) as u64))
}

pub fn read(text: &[u8], positive: &mut [u64], negative: &mut [u64]) -> Result<Formula, Refusal> {
    if text.len() > TEXT {
        return Err((1, TEXT as u64));
    }
    let (variables, clauses, behind) = sizes(text, positive.len().min(negative.len()))?;
    let mut formula = Formula { target: 0, variables, clauses, permutations: 0, images: [0; 1024] };
    for (i, clause) in body(text, behind, &mut formula)?.into_iter().enumerate() {
        (positive[i], negative[i]) = clause;
    }
    Ok(formula)
}

// ---- permutations, and tests 10 to 12

// A permutation as masks to rotate: variables that move equally far move together. `sends` has the digit to which
// each variable goes.
pub struct Permutation {
    turns: Vec<(u64, u32)>,
    sends: [u64; 64],
}

impl Permutation {
    // None unless each variable is an image just one time.
    fn new(images: &[u8]) -> Option<Permutation> {
        let (mut masks, mut sends) = ([0u64; 64], [0u64; 64]);
        let mut found = 0;
        for (i, &image) in images.iter().enumerate() {
            let to = usize::from(image).checked_sub(1).filter(|&to| to < images.len())?;
            masks[(to + 64 - i) % 64] |= 1 << i;
            sends[i] = 1 << to;
            found |= sends[i];
        }
        let turns = (0..64).map(|turn| (masks[turn as usize], turn)).filter(|&(mask, _)| mask != 0).collect();
        (found == u64::MAX >> (64 - images.len())).then_some(Permutation { turns, sends })
    }

    fn image(&self, set: u64) -> u64 {
        self.turns.iter().fold(0, |image, &(mask, turn)| image | (set & mask).rotate_left(turn))
    }
}

// A hash for the clauses of one sheet: cheap, and nothing against a sheet that was made to collide.
#[derive(Default)]
struct Folded(u64);

impl Hasher for Folded {
    fn write(&mut self, bytes: &[u8]) {
        bytes.iter().for_each(|&byte| self.write_u64(u64::from(byte)));
    }

    fn write_u64(&mut self, word: u64) {
        let product = u128::from(self.0 ^ word ^ 0x243F_6A88_85A3_08D3) * 0x9E37_79B9_7F4A_7C15;
        self.0 = product as u64 ^ (product >> 64) as u64;
    }

    fn finish(&self) -> u64 {
        self.0
    }
}

fn above(n: u32) -> u64 {
    u64::MAX.checked_shl(n).unwrap_or(0)
}

fn falsifies(point: u64, positive: u64, negative: u64) -> bool {
    point & positive | !point & negative == 0
}

impl Clauses<'_> {
    fn pairs(&self) -> impl Iterator<Item = (u64, u64)> + '_ {
        self.positive.iter().copied().zip(self.negative.iter().copied())
    }

    pub fn variables(&self, clause: usize) -> u64 {
        self.positive[clause] | self.negative[clause]
    }

    // Refusal 10, with other digits that must not be above n.
    fn fit(&self, formula: &Formula, digits: u64) -> Result<(), Refusal> {
        let count = formula.clauses as usize;
        let sizes = (1..=VARIABLES).contains(&formula.variables) && formula.clauses <= CLAUSES;
        let all = self.positive.iter().chain(self.negative).fold(digits, |all, set| all | set);
        if sizes && self.positive.len() == count && self.negative.len() == count && all & above(formula.variables) == 0
        {
            Ok(())
        } else {
            Err((10, 0))
        }
    }

    // Refusals 11 and 12 for permutations of n variables.
    pub fn kept_by(&self, count: u32, n: u32, images: &[u8]) -> Result<Vec<Permutation>, Refusal> {
        if count as usize > PERMUTATIONS {
            return Err((11, 17));
        }
        let mut permutations = Vec::with_capacity(count as usize);
        for (k, images) in images.chunks_exact(n as usize).take(count as usize).enumerate() {
            permutations.push(Permutation::new(images).ok_or((11, k as u64 + 1))?);
        }
        if count > 0 {
            let known: HashSet<(u64, u64), BuildHasherDefault<Folded>> = self.pairs().collect();
            let keeps = |e: &Permutation| self.pairs().all(|(p, q)| known.contains(&(e.image(p), e.image(q))));
            if let Some(k) = permutations.iter().position(|e| !keeps(e)) {
                return Err((12, k as u64 + 1));
            }
        }
        Ok(permutations)
    }

    // The lowest clause that a point falsifies, from 0. Most points falsify one of the first, so these are tried one by
    // one; the others eight at a time, which compilers turn into vectors.
    pub fn lowest(&self, point: u64) -> Option<usize> {
        let one = |i: &usize| falsifies(point, self.positive[*i], self.negative[*i]);
        let count = self.positive.len();
        let mut at = count.min(16);
        if let Some(i) = (0..at).find(one) {
            return Some(i);
        }
        for (p, q) in self.positive[at..].chunks_exact(8).zip(self.negative[at..].chunks_exact(8)) {
            if (0..8).fold(false, |any, k| any | falsifies(point, p[k], q[k])) {
                break;
            }
            at += 8;
        }
        (at..count).find(one)
    }

    // 2026-03: the points of a level, tested before one of them is processed: the smallest that satisfies all clauses,
    // if one does. `lowest` takes the lowest clause that each falsifies, so that none is scanned again.
    fn test(&self, level: &[u64], lowest: &mut Vec<u32>) -> Option<u64> {
        let mut smallest = None;
        lowest.clear();
        for &point in level {
            match self.lowest(point) {
                Some(clause) => lowest.push(clause as u32),
                None => smallest = Some(smallest.map_or(point, |other| point.min(other))),
            }
        }
        smallest
    }
}

// ---- the writer of sheets

// Literals as they stand in a text: four bytes, the last a blank, of which the first so many count.
type Literals = [([u8; 4], usize); VARIABLES as usize];

const POSITIVE: Literals = literals(b"");
const NEGATIVE: Literals = literals(b"-");

const fn literals(sign: &[u8]) -> Literals {
    let mut all = [([b' '; 4], 0); VARIABLES as usize];
    let mut i = 0;
    while i < all.len() {
        let (tens, units) = ((i + 1) / 10, (i + 1) % 10);
        let (word, length) = &mut all[i];
        if !sign.is_empty() {
            word[0] = sign[0];
            *length = 1;
        }
        if tens > 0 {
            word[*length] = b'0' + tens as u8;
            *length += 1;
        }
        word[*length] = b'0' + units as u8;
        *length += 2;
        i += 1;
    }
    all
}

// How many bytes the numbers of a set take, a blank behind each: those from 10 on have one more.
fn listed(set: u64) -> usize {
    2 * set.count_ones() as usize + (set >> 9).count_ones() as usize
}

// What is written so far of a text that is known to fit.
struct Pen<'a> {
    text: &'a mut [u8],
    at: usize,
}

impl Pen<'_> {
    fn put(&mut self, bytes: &[u8]) {
        self.text[self.at..self.at + bytes.len()].copy_from_slice(bytes);
        self.at += bytes.len();
    }

    // A number of up to four digits, with a byte behind it.
    fn number(&mut self, value: u32, behind: u8) {
        let mut digits = [b'0', b'0', b'0', b'0', behind];
        let mut left = value;
        for digit in digits[..4].iter_mut().rev() {
            *digit += (left % 10) as u8;
            left /= 10;
        }
        let zeros = usize::from(value < 10) + usize::from(value < 100) + usize::from(value < 1000);
        self.put(&digits[zeros..]);
    }

    // A literal with another word behind it. Four bytes are stored whatever it has: the others are stored later.
    fn literal(&mut self, (word, length): ([u8; 4], usize)) {
        self.text[self.at..self.at + 4].copy_from_slice(&word);
        self.at += length;
    }

    // The digits of a target, and byte 10.
    fn target(&mut self, point: u64, n: usize) {
        let digits = &mut self.text[self.at..self.at + n];
        digits.iter_mut().enumerate().for_each(|(i, digit)| *digit = b'0' + (point >> i & 1) as u8);
        self.at += n;
        self.put(b"\n");
    }

    fn clause(&mut self, positive: u64, negative: u64) {
        let both = positive & negative;
        for variable in each(positive | negative) {
            let word = if positive >> variable & 1 == 1 { POSITIVE[variable] } else { NEGATIVE[variable] };
            self.literal(word);
            if both >> variable & 1 == 1 {
                self.literal(NEGATIVE[variable]);
            }
        }
        self.put(b"0\n");
    }
}

// Whether images are those of a permutation: as many as there are, each once.
fn permutes(images: &[u8]) -> bool {
    let bit = |image: u8| 1u64.checked_shl(u32::from(image).wrapping_sub(1)).unwrap_or(0);
    images.iter().fold(0, |found, &image| found | bit(image)) == u64::MAX >> (64 - images.len())
}

// Writes a formula and its clauses as a text; answers its length.
pub fn write_sheet(formula: &Formula, clauses: Clauses, out: &mut [u8]) -> Result<usize, Refusal> {
    clauses.fit(formula, formula.target)?;
    let (n, count) = (formula.variables as usize, formula.permutations as usize);
    if count > PERMUTATIONS {
        return Err((11, 17));
    }
    let permutations = || formula.images.chunks_exact(n).take(count);
    if let Some(k) = permutations().position(|images| !permutes(images)) {
        return Err((11, k as u64 + 1));
    }
    let digits = |value: u32| value.checked_ilog10().unwrap_or(0) as usize + 1;
    let head = 8 + digits(formula.variables) + digits(formula.clauses) + 8 + n;
    let exchanges = count * (7 + listed(u64::MAX >> (64 - n)));
    let lines: usize = clauses.pairs().map(|(p, q)| listed(p) + listed(q) + q.count_ones() as usize + 2).sum();
    let length = head + exchanges + lines;
    let text = out.get_mut(..length).ok_or((19, length as u64))?;
    let mut pen = Pen { text, at: 0 };
    pen.put(b"p cnf ");
    pen.number(formula.variables, b' ');
    pen.number(formula.clauses, b'\n');
    pen.put(b"c wish ");
    pen.target(formula.target, n);
    for images in permutations() {
        pen.put(b"c exch ");
        let (last, others) = images.split_last().expect("a variable");
        others.iter().for_each(|&image| pen.literal(POSITIVE[usize::from(image) - 1]));
        pen.number(u32::from(*last), b'\n');
    }
    clauses.pairs().for_each(|(positive, negative)| pen.clause(positive, negative));
    Ok(pen.at)
}

// ---- the search

// The points that are known, and the images of one point at hand once they are asked for.
pub struct Known {
    pub points: HashSet<u64>,
    permutations: Vec<Permutation>,
    images: [u64; PERMUTATIONS],
    pub made: bool,
}

impl Known {
    pub fn new(points: HashSet<u64>, permutations: Vec<Permutation>) -> Known {
        Known { points, permutations, images: [0; PERMUTATIONS], made: false }
    }

    // Whether a point with one variable flipped is covered: the image of a flip is the image with another flip.
    pub fn covers(&mut self, point: u64, variable: usize) -> bool {
        if self.points.contains(&(point ^ 1 << variable)) {
            return true;
        }
        if !self.made {
            self.images.iter_mut().zip(&self.permutations).for_each(|(image, e)| *image = e.image(point));
            self.made = true;
        }
        self.permutations.iter().zip(&self.images).any(|(e, image)| self.points.contains(&(image ^ e.sends[variable])))
    }
}

// The variables of a set, ascending, from 0.
pub fn each(mut set: u64) -> impl Iterator<Item = usize> {
    std::iter::from_fn(move || {
        let lowest = (set != 0).then(|| set.trailing_zeros() as usize);
        set &= set.wrapping_sub(1);
        lowest
    })
}

pub fn search(
    formula: &Formula,
    clauses: Clauses,
    points: &mut [u64],
    numbers: &mut [u32],
    depths: &mut [u32],
) -> Result<Answer, Refusal> {
    clauses.fit(formula, formula.target)?;
    let permutations = clauses.kept_by(formula.permutations, formula.variables, &formula.images)?;
    let room = points.len().min(numbers.len()).min(depths.len()).min(SLOTS);
    if room == 0 {
        return Err((13, 0));
    }
    let known = Known::new(HashSet::with_capacity(room.min(256)), permutations);
    let (points, numbers, depths) = (&mut points[..room], &mut numbers[..room], &mut depths[..room]);
    Ok(walk(formula.target, clauses, known, points, numbers, depths))
}

// The walk over slots of three slices of one length, level by level.
fn walk(
    target: u64,
    clauses: Clauses,
    mut known: Known,
    points: &mut [u64],
    numbers: &mut [u32],
    depths: &mut [u32],
) -> Answer {
    known.points.insert(target);
    (points[0], numbers[0], depths[0]) = (target, 0, 0);
    let (mut level, mut filled, mut lowest) = (0, 1, Vec::new());
    while level < filled {
        if let Some(point) = clauses.test(&points[level..filled], &mut lowest) {
            return Answer::Satisfiable { point, changes: (point ^ target).count_ones(), filled };
        }
        for (next, &clause) in (level..filled).zip(&lowest) {
            let (point, depth) = (points[next], depths[next]);
            numbers[next] = clause + 1;
            known.made = false;
            for variable in each(clauses.variables(clause as usize)) {
                if known.covers(point, variable) {
                    continue;
                }
                if filled == points.len() {
                    return Answer::Unknown { bound: depth + 1, filled };
                }
                let flipped = point ^ 1 << variable;
                (points[filled], numbers[filled], depths[filled]) = (flipped, 0, depth + 1);
                known.points.insert(flipped);
                filled += 1;
            }
        }
        level += lowest.len();
    }
    Answer::Unsatisfiable { filled }
}

// ---- certificates

// Refusal 16: the points as a set.
fn distinct(points: &[u64], n: u32) -> Result<HashSet<u64>, Refusal> {
    let mut known = HashSet::with_capacity(points.len().min(256));
    match points.iter().position(|&point| point & above(n) != 0 || !known.insert(point)) {
        Some(k) => Err((16, k as u64 + 1)),
        None => Ok(known),
    }
}

// Refusal 17.
fn falsified(points: &[u64], numbers: impl Iterator<Item = u32>, clauses: Clauses) -> Result<(), Refusal> {
    for (k, (&point, number)) in points.iter().zip(numbers).enumerate() {
        let clause = (number as usize).wrapping_sub(1);
        if clause >= clauses.positive.len() || !falsifies(point, clauses.positive[clause], clauses.negative[clause]) {
            return Err((17, k as u64 + 1));
        }
    }
    Ok(())
}

// Writes the certificate of the first `filled` slots, of which so many are lent; answers its length.
pub fn write(
    formula: &Formula,
    clauses: Clauses,
    points: &[u64],
    numbers: &[u32],
    depths: &[u32],
    filled: usize,
    out: &mut [u8],
) -> Result<usize, Refusal> {
    clauses.fit(formula, formula.target)?;
    clauses.kept_by(formula.permutations, formula.variables, &formula.images)?;
    if filled == 0 || filled > points.len().min(numbers.len()).min(depths.len()).min(SLOTS) {
        return Err((16, 0));
    }
    let (points, numbers) = (&points[..filled], &numbers[..filled]);
    distinct(points, formula.variables)?;
    falsified(points, numbers.iter().copied(), clauses)?;
    let images = (formula.variables * formula.permutations) as usize;
    let (second, third) = (32 + images, 32 + images + 8 * filled);
    let length = third + 4 * filled;
    let out = out.get_mut(..length).ok_or((19, length as u64))?;
    let (count, places) = (filled as u32, [second as u32, third as u32]);
    let contents = [formula.variables, formula.clauses, formula.permutations, 32, count, places[0], count, places[1]];
    put(&mut out[..32], contents.map(u32::to_le_bytes));
    out[32..second].copy_from_slice(&formula.images[..images]);
    put(&mut out[second..third], points.iter().map(|point| point.to_le_bytes()));
    put(&mut out[third..], numbers.iter().map(|number| number.to_le_bytes()));
    Ok(length)
}

// Puts numbers of so many bytes each one behind the other.
fn put<const BYTES: usize>(out: &mut [u8], numbers: impl IntoIterator<Item = [u8; BYTES]>) {
    out.chunks_exact_mut(BYTES).zip(numbers).for_each(|(place, bytes)| place.copy_from_slice(&bytes));
}

fn number_of(bytes: &[u8]) -> u32 {
    u32::from_le_bytes(bytes.try_into().expect("four bytes"))
}

// A certificate's first three numbers, and its bodies: permutations, points, numbers.
fn open(file: &[u8]) -> Option<([u32; 3], [&[u8]; 3])> {
    let contents = file.get(..32)?;
    let field = |i: usize| u64::from(number_of(&contents[4 * i..4 * i + 4]));
    let (n, permutations, points) = (field(0), field(2), field(4));
    let second = n.checked_mul(permutations)?.checked_add(32)?;
    let third = second.checked_add(8 * points)?;
    let fits = field(3) == 32
        && [field(5), field(6), field(7)] == [second, points, third]
        && file.len() as u64 == third + 4 * points;
    let (second, third) = (second as usize, third as usize);
    let bodies = || [&file[32..second], &file[second..third], &file[third..]];
    fits.then(|| ([n as u32, field(1) as u32, permutations as u32], bodies()))
}

pub fn check(formula: &Formula, clauses: Clauses, file: &[u8]) -> Result<(), Refusal> {
    clauses.fit(formula, 0)?;
    let ([n, m, count], [images, points, numbers]) = open(file).ok_or((14, file.len() as u64))?;
    if n != formula.variables || m != formula.clauses {
        return Err((15, 0));
    }
    let permutations = clauses.kept_by(count, n, images)?;
    let points: Vec<u64> =
        points.chunks_exact(8).map(|bytes| u64::from_le_bytes(bytes.try_into().expect("eight bytes"))).collect();
    if points.is_empty() || points.len() > SLOTS {
        return Err((16, 0));
    }
    let numbers = numbers.chunks_exact(4).map(number_of);
    let mut known = Known::new(distinct(&points, n)?, permutations);
    falsified(&points, numbers.clone(), clauses)?;
    for (k, (&point, number)) in points.iter().zip(numbers).enumerate() {
        known.made = false;
        if !each(clauses.variables(number as usize - 1)).all(|variable| known.covers(point, variable)) {
            return Err((18, k as u64 + 1));
        }
    }
    Ok(())
}

// ---- everything from a text to a checked certificate

// Slots to fill, in three lists of the same length.
#[derive(Clone, PartialEq, Debug)]
pub struct Slots {
    pub points: Vec<u64>,
    pub numbers: Vec<u32>,
    pub depths: Vec<u32>,
}

impl Slots {
    pub fn new(count: usize) -> Slots {
        Slots { points: vec![0; count], numbers: vec![0; count], depths: vec![0; count] }
    }

    pub fn search(&mut self, formula: &Formula, clauses: Clauses) -> Result<Answer, Refusal> {
        search(formula, clauses, &mut self.points, &mut self.numbers, &mut self.depths)
    }

    pub fn write(&self, formula: &Formula, clauses: Clauses, filled: usize, out: &mut [u8]) -> Result<usize, Refusal> {
        write(formula, clauses, &self.points, &self.numbers, &self.depths, filled, out)
    }
}

// Reads into two clause slices, searches and, where no point satisfies the clauses, writes and checks the certificate;
// answers its length, or 0.
pub fn solve(
    text: &[u8],
    [positive, negative]: [&mut [u64]; 2],
    slots: &mut Slots,
    out: &mut [u8],
) -> Result<(Answer, usize), Refusal> {
    let formula = read(text, positive, negative)?;
    let count = formula.clauses as usize;
    let clauses = Clauses { positive: &positive[..count], negative: &negative[..count] };
    let answer = slots.search(&formula, clauses)?;
    let Answer::Unsatisfiable { filled } = answer else { return Ok((answer, 0)) };
    let length = slots.write(&formula, clauses, filled, out)?;
    check(&formula, clauses, &out[..length])?;
    Ok((answer, length))
}
