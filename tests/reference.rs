// An implementation of document 01, with the requests of document 02 that are in, for comparison, written from their
// sentences: names are numbers from 1, a rule is a list of literals as the text has them, sets are the standard
// library's. It shares nothing with the library but the forms in which things are lent.
#![allow(dead_code)] // a program uses some of them
use std::collections::{BTreeSet, HashSet};

pub type Refusal = (u32, u128);

// "n, C, the wish, and the exchanges as 1,024 bytes beside their number", and the rules as two numbers each.
#[derive(Clone, PartialEq, Debug)]
pub struct Sheet {
    pub names: u32,
    pub rules: u32,
    pub wish: u64,
    pub exchanges: u32,
    pub bytes: Vec<u8>,
    pub yes: Vec<u64>,
    pub no: Vec<u64>,
}

#[derive(Clone, PartialEq, Debug)]
pub enum Reply {
    Met { choice: u64, changes: u32, slots: usize },
    Unmet { slots: usize },
    NoRoom { least: u32, slots: usize },
    Refused(u32, u128),
}

#[derive(Clone, Copy, PartialEq, Debug)]
pub struct Slot {
    pub point: u64,
    pub rule: u32,
    pub depth: u32,
}

const MOST_NAMES: u32 = 64;
const MOST_RULES: u32 = 4096;
const MOST_EXCHANGES: u32 = 16;
const MOST_SLOTS: usize = 65536;

fn blank(b: u8) -> bool {
    b == b' ' || b == b'\t' || b == b'\r'
}

// The words of a line, each with its place in the text.
fn words(line: &[u8], start: usize) -> Vec<(usize, &[u8])> {
    let mut found = Vec::new();
    let mut from = None;
    for i in 0..=line.len() {
        let inside = i < line.len() && !blank(line[i]);
        match (inside, from) {
            (true, None) => from = Some(i),
            (false, Some(a)) => {
                found.push((start + a, &line[a..i]));
                from = None;
            }
            _ => {}
        }
    }
    found
}

// "one to four decimal digits".
fn digits(word: &[u8]) -> Option<u32> {
    if word.is_empty() || word.len() > 4 || !word.iter().all(u8::is_ascii_digit) {
        return None;
    }
    Some(word.iter().fold(0, |n, d| n * 10 + u32::from(d - b'0')))
}

// "an optional minus, one to four digits, leading zeros allowed, a minus before value 0 malformed".
fn literal(word: &[u8]) -> Option<i64> {
    match word.strip_prefix(b"-") {
        Some(rest) => digits(rest).filter(|&n| n > 0).map(|n| -i64::from(n)),
        None => digits(word).map(i64::from),
    }
}

// 2026-01: "a line whose first byte is `%` and that otherwise holds blanks".
fn percent(line: &[u8]) -> bool {
    line.first() == Some(&b'%') && line[1..].iter().all(|&b| blank(b))
}

// "Lines end with byte 10; the last may lack it."
fn lines(text: &[u8]) -> Vec<(usize, &[u8])> {
    let mut at = 0;
    let mut all = Vec::new();
    for piece in text.split(|&b| b == b'\n') {
        all.push((at, piece));
        at += piece.len() + 1;
    }
    all
}

fn problem(line: &[u8]) -> Option<(u32, u32)> {
    let parts: Vec<&[u8]> = words(line, 0).into_iter().map(|w| w.1).collect();
    if line.first() != Some(&b'p') || parts.len() != 4 || parts[0] != b"p" || parts[1] != b"cnf" {
        return None;
    }
    Some((digits(parts[2])?, digits(parts[3])?))
}

// "n digits 0 or 1 unparted, name 1 first, then only blanks".
fn wish(rest: &[u8], n: usize) -> Option<u64> {
    if rest.len() < n || !rest[n..].iter().all(|&b| blank(b)) {
        return None;
    }
    let mut value = 0;
    for (i, digit) in rest[..n].iter().enumerate() {
        match digit {
            b'0' => {}
            b'1' => value |= 1 << i,
            _ => return None,
        }
    }
    Some(value)
}

// "n numbers from 1 to n without sign .. the first right behind those seven bytes .. every number just one time".
fn exchange(rest: &[u8], n: u32) -> Option<Vec<u8>> {
    if rest.first().is_none_or(|&b| blank(b)) {
        return None;
    }
    let numbers: Option<Vec<u32>> = words(rest, 0).iter().map(|w| digits(w.1)).collect();
    let numbers = numbers?;
    let wanted: BTreeSet<u32> = (1..=n).collect();
    let got: BTreeSet<u32> = numbers.iter().copied().collect();
    (numbers.len() == n as usize && got == wanted).then(|| numbers.iter().map(|&x| x as u8).collect())
}

// What is read behind the problem line.
struct Reading {
    wished: Option<u64>,
    exchanges: Vec<Vec<u8>>,
    closed: Vec<Vec<i64>>,
    current: Vec<i64>,
}

impl Reading {
    fn comment(&mut self, start: usize, line: &[u8], n: u32) -> Result<(), Refusal> {
        if let Some(rest) = line.strip_prefix(b"c wish ") {
            if self.wished.is_some() {
                return Err((8, start as u128));
            }
            self.wished = Some(wish(rest, n as usize).ok_or((8, start as u128))?);
        } else if let Some(rest) = line.strip_prefix(b"c exch ") {
            if self.exchanges.len() == MOST_EXCHANGES as usize {
                return Err((9, start as u128));
            }
            self.exchanges.push(exchange(rest, n).ok_or((9, start as u128))?);
        }
        Ok(())
    }

    fn word(&mut self, at: usize, word: &[u8], n: u32, rules: u32) -> Result<(), Refusal> {
        if self.closed.len() == rules as usize {
            return Err((7, at as u128));
        }
        let value = literal(word).ok_or((5, at as u128))?;
        if value.unsigned_abs() > u64::from(n) {
            return Err((6, at as u128));
        }
        if value == 0 {
            self.closed.push(std::mem::take(&mut self.current));
        } else {
            self.current.push(value);
        }
        Ok(())
    }
}

// A rule as two sets of names.
fn sets(rule: &[i64]) -> (u64, u64) {
    let mut both = (0, 0);
    for &l in rule {
        let side = if l > 0 { &mut both.0 } else { &mut both.1 };
        *side |= 1 << (l.unsigned_abs() - 1);
    }
    both
}

pub fn read(text: &[u8], yes_room: usize, no_room: usize) -> Result<Sheet, Refusal> {
    if text.len() > 1 << 20 {
        return Err((1, 1 << 20));
    }
    let all = lines(text);
    let idle = |line: &[u8]| line.first() == Some(&b'c') || line.iter().all(|&b| blank(b));
    let place = all.iter().position(|l| !idle(l.1)).ok_or((2, text.len() as u128))?;
    let start = all[place].0 as u128;
    let (names, rules) = problem(all[place].1).ok_or((2, start))?;
    if names < 1 || names > MOST_NAMES || rules > MOST_RULES {
        return Err((3, start));
    }
    if yes_room < rules as usize || no_room < rules as usize {
        return Err((4, start));
    }
    let mut reading = Reading { wished: None, exchanges: Vec::new(), closed: Vec::new(), current: Vec::new() };
    let mut end = text.len();
    for &(at, line) in &all[place + 1..] {
        if percent(line) {
            end = at;
            break;
        }
        if line.first() == Some(&b'c') {
            reading.comment(at, line, names)?;
        } else {
            for (place, word) in words(line, at) {
                reading.word(place, word, names, rules)?;
            }
        }
    }
    if reading.closed.len() < rules as usize {
        return Err((7, end as u128));
    }
    let mut bytes = reading.exchanges.concat();
    bytes.resize(1024, 0);
    let rule_sets: Vec<(u64, u64)> = reading.closed.iter().map(|r| sets(r)).collect();
    Ok(Sheet {
        names,
        rules,
        wish: reading.wished.unwrap_or(0),
        exchanges: reading.exchanges.len() as u32,
        bytes,
        yes: rule_sets.iter().map(|r| r.0).collect(),
        no: rule_sets.iter().map(|r| r.1).collect(),
    })
}

// 2026-02: "names ascending, a name listed both ways yes before no, closing 0".
fn rule_line((yes, no): (u64, u64), n: u32) -> String {
    let mut line = String::new();
    for i in 0..n {
        if yes >> i & 1 == 1 {
            line += &format!("{} ", i + 1);
        }
        if no >> i & 1 == 1 {
            line += &format!("-{} ", i + 1);
        }
    }
    line + "0"
}

// 2026-02: "problem line, wish line, exchange lines, then a line a rule .. no leading zeros, one byte 32 between words,
// byte 10 after each line".
fn sheet_text(sheet: &Sheet) -> String {
    let digit = |i: u32| if sheet.wish >> i & 1 == 1 { '1' } else { '0' };
    let numbers = |e: &[u8]| e.iter().map(u8::to_string).collect::<Vec<_>>().join(" ");
    let mut lines = vec![format!("p cnf {} {}", sheet.names, sheet.rules)];
    lines.push(format!("c wish {}", (0..sheet.names).map(digit).collect::<String>()));
    lines.extend(sheet.listed().iter().map(|e| format!("c exch {}", numbers(e))));
    lines.extend(sheet.both().iter().map(|&rule| rule_line(rule, sheet.names)));
    lines.join("\n") + "\n"
}

// 2026-02: "It gives 10, 11, then 19 for short output".
pub fn write_sheet(sheet: &Sheet, room: usize) -> Result<Vec<u8>, Refusal> {
    sheet.well_formed()?;
    let text = sheet_text(sheet);
    if room < text.len() {
        return Err((19, text.len() as u128));
    }
    Ok(text.into_bytes())
}

// "The image of a choice has at e(i) the value that the choice has at i".
fn image(e: &[u8], set: u64) -> u64 {
    (0..e.len()).filter(|&i| set >> i & 1 == 1).map(|i| 1 << (e[i] - 1)).sum()
}

// "A choice meets a rule if some listed name has the listed value."
fn meets(rule: (u64, u64), choice: u64) -> bool {
    rule.0 & choice != 0 || rule.1 & !choice != 0
}

fn above(x: u64, n: u32) -> bool {
    n < 64 && x >> n != 0
}

impl Sheet {
    pub fn both(&self) -> Vec<(u64, u64)> {
        self.yes.iter().copied().zip(self.no.iter().copied()).collect()
    }

    fn listed(&self) -> Vec<&[u8]> {
        let n = self.names as usize;
        (0..self.exchanges as usize).map(|k| &self.bytes[k * n..(k + 1) * n]).collect()
    }

    // Row 10, with the wish or without.
    fn ten(&self, wished: bool) -> Result<(), Refusal> {
        let long =
            self.yes.len() != self.rules as usize || self.no.len() != self.rules as usize || self.rules > MOST_RULES;
        if self.names < 1 || self.names > MOST_NAMES || long {
            return Err((10, 0));
        }
        let bits = self.yes.iter().chain(&self.no).any(|&s| above(s, self.names));
        if bits || (wished && above(self.wish, self.names)) {
            return Err((10, 0));
        }
        Ok(())
    }

    // Rows 10 and 11.
    fn well_formed(&self) -> Result<(), Refusal> {
        self.ten(true)?;
        if self.exchanges > MOST_EXCHANGES {
            return Err((11, 17));
        }
        permutations(&self.listed(), self.names)
    }

    // Rows 10, 11 and 12.
    fn tested(&self) -> Result<(), Refusal> {
        self.well_formed()?;
        keep(&self.listed(), &self.both())
    }

    // "names that differ from the wish".
    fn changes(&self, choice: u64) -> u32 {
        (choice ^ self.wish).count_ones()
    }
}

fn permutations(listed: &[&[u8]], n: u32) -> Result<(), Refusal> {
    for (k, e) in listed.iter().enumerate() {
        let mut sorted = e.to_vec();
        sorted.sort_unstable();
        if sorted != (1..=n as u8).collect::<Vec<u8>>() {
            return Err((11, k as u128 + 1));
        }
    }
    Ok(())
}

// "It keeps the rules if the image of each rule, as two sets of names, is among the rules."
fn keep(listed: &[&[u8]], rules: &[(u64, u64)]) -> Result<(), Refusal> {
    let known: HashSet<(u64, u64)> = rules.iter().copied().collect();
    for (k, e) in listed.iter().enumerate() {
        if !rules.iter().all(|r| known.contains(&(image(e, r.0), image(e, r.1)))) {
            return Err((12, k as u128 + 1));
        }
    }
    Ok(())
}

// "A choice is covered by a set if it or its image under one listed exchange is in the set."
fn covered(set: &HashSet<u64>, listed: &[&[u8]], choice: u64) -> bool {
    set.contains(&choice) || listed.iter().any(|e| set.contains(&image(e, choice)))
}

// The names of a rule, ascending, as bits.
fn names_of(rule: (u64, u64), n: u32) -> Vec<u64> {
    (0..n).map(|i| 1u64 << i).filter(|bit| (rule.0 | rule.1) & bit != 0).collect()
}

// 2026-03: "on first taking a point of a new depth (0 included)": the slot processed before it, if any, is shallower.
fn opens(slots: &[Slot], next: usize) -> bool {
    next == 0 || slots[next - 1].depth < slots[next].depth
}

// 2026-03: "tests all unprocessed points of that depth", and of those that meet the rules "the one smallest as a
// number", if there is one. `next` is the first slot that is not processed.
fn tested(rules: &[(u64, u64)], slots: &[Slot], next: usize) -> Option<u64> {
    let level = slots[next..].iter().filter(|s| s.depth == slots[next].depth);
    level.map(|s| s.point).filter(|&point| rules.iter().all(|&r| meets(r, point))).min()
}

// The walk: the reply, and the slots as they are filled.
pub fn walk(sheet: &Sheet, lent: usize) -> (Reply, Vec<Slot>) {
    if let Err((number, place)) = sheet.tested() {
        return (Reply::Refused(number, place), Vec::new());
    }
    let room = lent.min(MOST_SLOTS);
    if room == 0 {
        return (Reply::Refused(13, 0), Vec::new());
    }
    let (rules, listed) = (sheet.both(), sheet.listed());
    let mut slots = vec![Slot { point: sheet.wish, rule: 0, depth: 0 }];
    let mut set: HashSet<u64> = HashSet::from([sheet.wish]);
    let mut next = 0;
    while next < slots.len() {
        if let Some(choice) = opens(&slots, next).then(|| tested(&rules, &slots, next)).flatten() {
            return (Reply::Met { choice, changes: sheet.changes(choice), slots: slots.len() }, slots);
        }
        let Slot { point, depth, .. } = slots[next];
        let unmet = rules.iter().position(|&r| !meets(r, point)).expect("a point of a tested level fails a rule");
        slots[next].rule = unmet as u32 + 1;
        for bit in names_of(rules[unmet], sheet.names) {
            let flipped = point ^ bit;
            if covered(&set, &listed, flipped) {
                continue;
            }
            if slots.len() == room {
                // 2026-03: "the number carried is the depth being processed plus one"
                return (Reply::NoRoom { least: depth + 1, slots: slots.len() }, slots);
            }
            slots.push(Slot { point: flipped, rule: 0, depth: depth + 1 });
            set.insert(flipped);
        }
        next += 1;
    }
    (Reply::Unmet { slots: slots.len() }, slots)
}

// Row 16 for points, row 17 for their rules.
fn points_and_rules(points: &[u64], numbers: &[u32], n: u32, rules: &[(u64, u64)], most: usize) -> Result<(), Refusal> {
    if points.is_empty() || points.len() > most {
        return Err((16, 0));
    }
    let mut seen = HashSet::new();
    for (k, &x) in points.iter().enumerate() {
        if above(x, n) || !seen.insert(x) {
            return Err((16, k as u128 + 1));
        }
    }
    for (k, (&x, &r)) in points.iter().zip(numbers).enumerate() {
        let rule = (r as usize).checked_sub(1).and_then(|i| rules.get(i));
        if rule.is_none_or(|&rule| meets(rule, x)) {
            return Err((17, k as u128 + 1));
        }
    }
    Ok(())
}

// The writer: the certificate's bytes.
pub fn write(
    sheet: &Sheet,
    points: &[u64],
    numbers: &[u32],
    depths: usize,
    count: u32,
    room: usize,
) -> Result<Vec<u8>, Refusal> {
    sheet.tested()?;
    let lent = points.len().min(numbers.len()).min(depths).min(MOST_SLOTS);
    let count = count as usize;
    if count < 1 || count > lent {
        return Err((16, 0));
    }
    let (points, numbers) = (&points[..count], &numbers[..count]);
    points_and_rules(points, numbers, sheet.names, &sheet.both(), lent)?;
    let exchanges: Vec<u8> = sheet.listed().concat();
    let second = 32 + exchanges.len();
    let third = second + 8 * count;
    let fields =
        [sheet.names as usize, sheet.rules as usize, sheet.exchanges as usize, 32, count, second, count, third];
    let mut file: Vec<u8> = fields.iter().flat_map(|&x| (x as u32).to_le_bytes()).collect();
    file.extend(exchanges);
    file.extend(points.iter().flat_map(|x| x.to_le_bytes()));
    file.extend(numbers.iter().flat_map(|x| x.to_le_bytes()));
    if room < file.len() {
        return Err((19, file.len() as u128));
    }
    Ok(file)
}

// The contents of a file: eight numbers. All sums are those of numbers without limit, here of 128 bits.
pub fn open(file: &[u8]) -> Result<[u32; 8], Refusal> {
    let wrong = (14, file.len() as u128);
    if file.len() < 32 {
        return Err(wrong);
    }
    let field = |i: usize| u32::from_le_bytes(file[4 * i..4 * i + 4].try_into().expect("four bytes"));
    let c: [u32; 8] = std::array::from_fn(field);
    let w: [u128; 8] = c.map(u128::from);
    let second = 32 + w[2] * w[0];
    let third = second + 8 * w[4];
    let fits = w[3] == 32 && w[5] == second && w[7] == third && w[4] == w[6] && file.len() as u128 == third + 4 * w[6];
    if fits {
        Ok(c)
    } else {
        Err(wrong)
    }
}

// The three bodies of a file whose contents are in order, as lists.
pub fn bodies(file: &[u8], c: &[u32; 8]) -> (Vec<Vec<u8>>, Vec<u64>, Vec<u32>) {
    let n = c[0] as usize;
    let (first, second, third) = (c[3] as usize, c[5] as usize, c[7] as usize);
    let listed = (0..if n == 0 { 0 } else { c[2] as usize })
        .map(|k| file[first + k * n..first + (k + 1) * n].to_vec())
        .collect();
    let points =
        file[second..third].chunks(8).map(|b| u64::from_le_bytes(b.try_into().expect("eight bytes"))).collect();
    let numbers = file[third..].chunks(4).map(|b| u32::from_le_bytes(b.try_into().expect("four bytes"))).collect();
    (listed, points, numbers)
}

// The checker.
pub fn check(sheet: &Sheet, file: &[u8]) -> Result<(), Refusal> {
    sheet.ten(false)?;
    let c = open(file)?;
    if c[0] != sheet.names || c[1] != sheet.rules {
        return Err((15, 0));
    }
    if c[2] > MOST_EXCHANGES {
        return Err((11, 17));
    }
    let (listed, points, numbers) = bodies(file, &c);
    let listed: Vec<&[u8]> = listed.iter().map(Vec::as_slice).collect();
    let rules = sheet.both();
    permutations(&listed, sheet.names)?;
    keep(&listed, &rules)?;
    points_and_rules(&points, &numbers, sheet.names, &rules, MOST_SLOTS)?;
    let set: HashSet<u64> = points.iter().copied().collect();
    for (k, &x) in points.iter().enumerate() {
        let rule = rules[numbers[k] as usize - 1];
        if !names_of(rule, sheet.names).iter().all(|bit| covered(&set, &listed, x ^ bit)) {
            return Err((18, k as u128 + 1));
        }
    }
    Ok(())
}

// What the program prints.
pub fn printed(text: &[u8]) -> String {
    let refused = |(number, place): Refusal| format!("c refused {number} {place}\n");
    if text.len() > 65536 {
        return refused((1, 65536));
    }
    let sheet = match read(text, 4096, 4096) {
        Ok(sheet) => sheet,
        Err(r) => return refused(r),
    };
    match walk(&sheet, 4096).0 {
        Reply::Refused(number, place) => refused((number, place)),
        Reply::Unmet { slots } => format!("s UNSATISFIABLE\nc slots {slots}\n"),
        Reply::NoRoom { least, slots } => format!("s UNKNOWN\nc room {least} {slots}\n"),
        Reply::Met { choice, changes, slots } => {
            let name = |i: u32| if choice >> (i - 1) & 1 == 1 { format!("{i} ") } else { format!("-{i} ") };
            let names: String = (1..=sheet.names).map(name).collect();
            format!("s SATISFIABLE\nv {names}0\nc changes {changes} slots {slots}\n")
        }
    }
}

// Every choice tried: the nearest of those that meet the rules, ascending. For few names.
pub fn nearest_choices(sheet: &Sheet) -> Vec<u64> {
    let rules = sheet.both();
    let meeting: Vec<u64> = (0..1u64 << sheet.names).filter(|&x| rules.iter().all(|&r| meets(r, x))).collect();
    let fewest = meeting.iter().map(|&x| sheet.changes(x)).min();
    meeting.into_iter().filter(|&x| Some(sheet.changes(x)) == fewest).collect()
}

// How many changes each of them has, if there is one.
pub fn nearest(sheet: &Sheet) -> Option<u32> {
    nearest_choices(sheet).first().map(|&x| sheet.changes(x))
}

pub fn satisfies(sheet: &Sheet, choice: u64) -> bool {
    !above(choice, sheet.names) && sheet.both().iter().all(|&r| meets(r, choice))
}
