// The compiled library against the implementation of reference.rs, on random and damaged inputs: replies and all
// memory lent are compared and, for at most 12 names, the promises are tried by brute force. Usage: differential SEED
// COUNT. Each case has a seed of its own, which is printed where something differs: `differential SEED 1` runs that
// case again. Exit status 1 if anything differs.
use std::collections::BTreeMap;

mod lending;
mod library;
mod reference;
use lending::{lent, words};
use library::{SATISFIABLE, UNKNOWN};
use reference::{Reply, Slot};

// Random numbers (xorshift), the same on every machine.
struct Random(u64);

impl Random {
    fn new(seed: u64) -> Random {
        let mut r = Random(seed.wrapping_mul(0x9E37_79B9_7F4A_7C15) ^ 0xD1B5_4A32_D192_ED03);
        r.0 |= 1;
        (0..8).for_each(|_| {
            r.next();
        });
        r
    }

    fn next(&mut self) -> u64 {
        self.0 ^= self.0 << 13;
        self.0 ^= self.0 >> 7;
        self.0 ^= self.0 << 17;
        self.0.wrapping_mul(0x2545_F491_4F6C_DD1D)
    }

    fn below(&mut self, n: u64) -> u64 {
        self.next() % n
    }

    fn chance(&mut self, one_in: u64) -> bool {
        self.below(one_in) == 0
    }

    fn pick<'a, T>(&mut self, of: &'a [T]) -> &'a T {
        &of[self.below(of.len() as u64) as usize]
    }

    fn permutation(&mut self, n: u32) -> Vec<u8> {
        let mut e: Vec<u8> = (1..=n as u8).collect();
        for i in (1..e.len()).rev() {
            e.swap(i, self.below(i as u64 + 1) as usize);
        }
        e
    }

    // Numbers that stand in every place of a slice before a call.
    fn filled(&mut self, len: usize) -> Vec<u64> {
        let first = self.next();
        (0..len as u64).map(|i| first.wrapping_add(i)).collect()
    }

    // The same for bytes.
    fn bytes(&mut self, len: usize) -> Vec<u8> {
        let first = self.next() as u8;
        (0..len).map(|i| first.wrapping_add(i as u8)).collect()
    }
}

fn narrow(xs: &[u64]) -> Vec<u32> {
    xs.iter().map(|&x| x as u32).collect()
}

fn refused(r: reference::Refusal) -> Vec<u64> {
    words(&Reply::Refused(r.0, r.1))
}

// ---- random inputs

fn rule(r: &mut Random, n: u32) -> (u64, u64) {
    let mut both = (0, 0);
    for _ in 0..*r.pick(&[0, 1, 1, 2, 2, 2, 3, 3, 4]) {
        let bit = 1u64 << r.below(u64::from(n));
        if r.chance(2) {
            both.0 |= bit
        } else {
            both.1 |= bit
        }
    }
    both
}

fn moved(e: &[u8], set: u64) -> u64 {
    (0..e.len()).filter(|&i| set >> i & 1 == 1).map(|i| 1u64 << (e[i] - 1)).sum()
}

// Rules that the permutations keep, as far as few rounds of adding images go.
fn closed(rules: &mut Vec<(u64, u64)>, listed: &[Vec<u8>]) {
    for _ in 0..6 {
        for k in 0..rules.len() {
            for e in listed {
                let image = (moved(e, rules[k].0), moved(e, rules[k].1));
                if !rules.contains(&image) && rules.len() < 300 {
                    rules.push(image);
                }
            }
        }
    }
}

fn sheet(r: &mut Random) -> reference::Sheet {
    let names = *r.pick(&[1, 2, 2, 3, 3, 4, 4, 5, 6, 7, 8, 10, 12, 20, 63, 64]);
    let rules = (0..r.below(if names > 12 { 6 } else { 3 * u64::from(names) + 2 })).map(|_| rule(r, names)).collect();
    let wish = r.next() & u64::MAX >> (64 - names);
    with_exchanges(r, names, wish, rules)
}

// A sheet on which several choices are as near to the wish, as a rule: most of what its rules list is not what is
// wished.
fn near_sheet(r: &mut Random) -> reference::Sheet {
    let names = 2 + r.below(11) as u32;
    let wish = r.next() & u64::MAX >> (64 - names);
    let mut listed = || {
        let mut both = (0, 0);
        for _ in 0..2 + r.below(4) {
            let bit = 1u64 << r.below(u64::from(names));
            let side = if (wish & bit == 0) != r.chance(5) { &mut both.0 } else { &mut both.1 };
            *side |= bit;
        }
        both
    };
    let rules = (0..2 * u64::from(names)).map(|_| listed()).collect::<Vec<_>>();
    let count = 1 + r.below(rules.len() as u64) as usize;
    with_exchanges(r, names, wish, rules[..count].to_vec())
}

// A sheet of these rules and of exchanges, with such further rules that the exchanges keep them, as a rule.
fn with_exchanges(r: &mut Random, names: u32, wish: u64, mut rules: Vec<(u64, u64)>) -> reference::Sheet {
    let listed: Vec<Vec<u8>> = (0..*r.pick(&[0u64, 0, 1, 1, 2, 3, 16]))
        .map(|_| if r.chance(3) { r.permutation(names) } else { exchanged(r, names) })
        .collect();
    if !r.chance(6) {
        closed(&mut rules, &listed);
    }
    let mut bytes = listed.concat();
    bytes.resize(1024, if r.chance(4) { 7 } else { 0 });
    reference::Sheet {
        names,
        rules: rules.len() as u32,
        wish,
        exchanges: listed.len() as u32,
        bytes,
        yes: rules.iter().map(|x| x.0).collect(),
        no: rules.iter().map(|x| x.1).collect(),
    }
}

// A set of names below a bound: none, all, or more or less many.
fn names_below(r: &mut Random, below: u64) -> u64 {
    below
        & match r.below(6) {
            0 => 0,
            1 => u64::MAX,
            2 => r.next(),
            3 => r.next() | r.next() | r.next(),
            _ => r.next() & r.next() & r.next(),
        }
}

// A sheet of any size, to be written: any number of names and of exchanges, which need not keep the rules; rules that
// list none to all of the names, also both ways; behind the exchanges any bytes.
fn any_sheet(r: &mut Random) -> reference::Sheet {
    let names = 1 + r.below(64) as u32;
    let below = u64::MAX >> (64 - names);
    let most = *r.pick(&[1, 4, 12, 40, 200]);
    let rules = if r.chance(100) { 4096 - r.below(2) } else { r.below(most) };
    let full = r.chance(6);
    let mut sets = || (0..rules).map(|_| if full { below } else { names_below(r, below) }).collect::<Vec<u64>>();
    let (yes, no) = (sets(), sets());
    let some = [0, 1, 2, 16, r.below(17)];
    let mut bytes: Vec<u8> = (0..*r.pick(&some)).flat_map(|_| r.permutation(names)).collect();
    let exchanges = bytes.len() as u32 / names;
    bytes.extend(r.bytes(1024 - bytes.len()));
    let wish = names_below(r, below);
    reference::Sheet { names, rules: rules as u32, wish, exchanges, bytes, yes, no }
}

// Two names exchanged, or none.
fn exchanged(r: &mut Random, n: u32) -> Vec<u8> {
    let mut e: Vec<u8> = (1..=n as u8).collect();
    let (a, b) = (r.below(u64::from(n)) as usize, r.below(u64::from(n)) as usize);
    e.swap(a, b);
    e
}

// The same sheet with its rules in another order.
fn shuffled(r: &mut Random, s: &reference::Sheet) -> reference::Sheet {
    let mut rules = s.both();
    for i in (1..rules.len()).rev() {
        rules.swap(i, r.below(i as u64 + 1) as usize);
    }
    let (yes, no) = rules.into_iter().unzip();
    reference::Sheet { yes, no, ..s.clone() }
}

// One thing of a sheet by value changed, so that a refusal is near.
fn bend(r: &mut Random, s: &mut reference::Sheet) {
    match r.below(9) {
        0 => s.names = *r.pick(&[0, 1, 2, 64, 65, u32::MAX]),
        1 => s.rules = *r.pick(&[0, 1, 4096, 4097, u32::MAX]),
        2 => s.wish = r.next(),
        3 => s.exchanges = *r.pick(&[0, 1, 16, 17, u32::MAX]),
        4 => s.bytes[r.below(40) as usize] = r.next() as u8,
        5 => {
            s.yes.pop();
        }
        6 => s.no.push(r.next()),
        7 => s.yes.push(1),
        _ => {
            let k = r.below(s.no.len() as u64 + 1) as usize;
            if let Some(x) = s.no.get_mut(k) {
                *x ^= 1 << r.below(64);
            }
        }
    }
}

// A text of a sheet in free form: blanks, comments, words over several lines.
fn text(r: &mut Random) -> Vec<u8> {
    let s = sheet(r);
    let mut out = Vec::new();
    while r.chance(3) {
        out.extend(*r.pick(&[&b"c a remark\n"[..], b"\n", b" \t\r\n", b"c wish 01\n", b"c exch 1\n", b"cnf 2 2\n"]));
    }
    let names = if r.chance(40) { *r.pick(&[0, 65, 9999]) } else { s.names };
    out.extend(format!("p cnf {names} {}\n", s.rules).bytes());
    let n = s.names as usize;
    let mut comments: Vec<Vec<u8>> = (0..s.exchanges as usize)
        .map(|k| {
            [
                &b"c exch "[..],
                s.bytes[k * n..(k + 1) * n].iter().map(|b| b.to_string()).collect::<Vec<_>>().join(" ").as_bytes(),
                b"\n",
            ]
            .concat()
        })
        .collect();
    if r.chance(2) {
        comments.push(
            [&b"c wish "[..], &(0..n).map(|i| b'0' + (s.wish >> i & 1) as u8).collect::<Vec<u8>>(), b" \n"].concat(),
        );
    }
    for (yes, no) in s.both() {
        let literals = (0..64)
            .filter(|i| yes >> i & 1 == 1)
            .map(|i| i + 1)
            .chain((0..64).filter(|i| no >> i & 1 == 1).map(|i| -i - 1));
        for l in literals.chain([0]) {
            if r.chance(9) {
                out.push(b'\n');
                out.extend(comments.pop().unwrap_or_default());
            }
            out.extend(format!("{l}{}", r.pick(&[" ", " ", "\t", "  ", "\n", "\r\n", " \n"])).bytes());
        }
    }
    out.push(b'\n');
    comments.into_iter().for_each(|c| out.extend(c));
    if r.chance(3) {
        out.extend(*r.pick(&[&b"%\n0\n\n"[..], b"%\n", b"% \t\r\nc wish 2\n%x\n", b"%x\n", b" %\n", b"%%\n", b"% "]));
    }
    if r.chance(3) {
        out.pop();
    }
    out
}

// Bytes changed, lost, repeated or put in.
fn damage(r: &mut Random, bytes: &mut Vec<u8>) {
    for _ in 0..1 + r.below(3) {
        let at = r.below(bytes.len() as u64 + 1) as usize;
        let span = (r.below(12) as usize).min(bytes.len() - at);
        match r.below(6) {
            0 => bytes.truncate(at),
            1 => {
                bytes.drain(at..at + span);
            }
            2 => {
                let part = bytes[at..at + span].to_vec();
                bytes.splice(at..at, part);
            }
            3 => {
                let word = *r.pick(&[
                    &b"c wish "[..],
                    b"c exch ",
                    b"p cnf ",
                    b"-0 ",
                    b"00012 ",
                    b"0",
                    b"-",
                    b"65 ",
                    b"c",
                    b"%",
                    b"\n%\n",
                    b"\n",
                    b"\0",
                ]);
                bytes.splice(at..at, word.iter().copied());
            }
            _ => {
                if let Some(b) = bytes.get_mut(at) {
                    *b = r.next() as u8;
                }
            }
        }
    }
}

// ---- one case

struct Case {
    random: Random,
    wrong: Vec<String>,
    seen: Vec<Answer>,
}

// Which function answered, its first word and, for a refusal, the number.
type Answer = (&'static str, u64, u64);

impl Case {
    fn same<T: PartialEq + std::fmt::Debug>(&mut self, what: &str, got: T, wanted: T) {
        if got != wanted {
            let mut line = format!("{what}: got {got:?}, wanted {wanted:?}");
            line.truncate(400);
            self.wrong.push(line);
        }
    }

    fn saw(&mut self, function: &'static str, reply: &[u64]) {
        self.seen.push((function, reply[0], if reply[0] == 0 { reply[1] } else { 0 }));
    }

    fn holds(&mut self, what: &str, fact: bool) {
        if !fact {
            self.wrong.push(format!("does not hold: {what}"));
        }
    }

    fn reader(&mut self) {
        let mut bytes = text(&mut self.random);
        if self.random.chance(2) {
            damage(&mut self.random, &mut bytes);
        }
        if self.random.chance(400) {
            let filler = *self.random.pick(&[b'\n', b'c', b' ', b'1', b'-', b'p']);
            bytes.resize((1 << 20) + self.random.below(2) as usize, filler);
        }
        let lengths = [300, self.random.below(40) as usize];
        let (yes, no) = (*self.random.pick(&lengths), *self.random.pick(&lengths));
        let before = (self.random.filled(yes), self.random.filled(no));
        let (mut positive, mut negative) = before.clone();
        let (mut numbers, mut images, mut reply) = ([3; 5], [3; 1025], [3; 5]);
        self.same(
            "returned",
            library::read(&bytes, &mut positive, &mut negative, &mut numbers, &mut images, &mut reply),
            1,
        );
        self.saw("read", &reply);
        match reference::read(&bytes, yes, no) {
            Ok(s) => {
                self.same("reply", reply.to_vec(), vec![4, 0, 0, 0, 3]);
                self.same(
                    "numbers",
                    numbers.to_vec(),
                    vec![u64::from(s.names), u64::from(s.rules), s.wish, u64::from(s.exchanges), 3],
                );
                self.same("images", images.to_vec(), [&s.bytes[..], &[3]].concat());
                self.same("positive", positive, [&s.yes[..], &before.0[s.yes.len()..]].concat());
                self.same("negative", negative, [&s.no[..], &before.1[s.no.len()..]].concat());
            }
            Err(r) => {
                self.same("reply", reply.to_vec(), [&refused(r)[..], &[3]].concat());
                self.same("clauses after a refusal", (positive, negative), before);
                self.same("formula after a refusal", (numbers, images), ([3; 5], [3; 1025]));
            }
        }
    }

    // A sheet as it is lent, with fewer images than 1,024, which then count as 0, or with more, which do not count.
    fn lent_in_part(&mut self, s: &mut reference::Sheet) -> library::Sheet {
        let used = (s.names.min(64) * s.exchanges.min(16)) as u64;
        let count = *self.random.pick(&[1024, 1024, 1030, used, used.saturating_sub(1)]) as usize;
        s.bytes.iter_mut().skip(count).for_each(|image| *image = 0);
        let mut all = lent(s);
        all.images.resize(count, 9);
        all
    }

    // A length of output: short of the bytes needed, as many, more, or about as many as always suffice.
    fn room_for(&mut self, needed: usize) -> usize {
        let short = self.random.below(needed as u64) as usize;
        let more = needed + self.random.below(300) as usize;
        let always = library::SHEET_ROOM - 1 + self.random.below(3) as usize;
        let lengths = [0, short, needed - 1, needed, needed, needed + 1, more];
        if self.random.chance(12) {
            always
        } else {
            *self.random.pick(&lengths)
        }
    }

    // A sheet written as a text, and what reading it gives.
    fn sheet_writer(&mut self) {
        let mut s = any_sheet(&mut self.random);
        if self.random.chance(4) {
            bend(&mut self.random, &mut s);
        }
        let lent = self.lent_in_part(&mut s);
        let room = self.room_for(reference::write_sheet(&s, usize::MAX).map_or(40, |text| text.len()));
        let (before, held) = (self.random.bytes(room), lent.clone());
        let (mut out, mut reply) = (before.clone(), [3; 5]);
        self.same("returned", library::write_sheet(&lent, &mut out, &mut reply), 1);
        self.saw("write_sheet", &reply);
        self.holds("the sheet lent is as it was", lent == held);
        match reference::write_sheet(&s, room) {
            Ok(text) => {
                self.same("written", reply.to_vec(), vec![5, text.len() as u64, 0, 0, 3]);
                self.same("output", out, [&text[..], &before[text.len()..]].concat());
                self.read_back(&s, &text);
            }
            Err(r) => {
                self.same("refused by the writer of sheets", reply.to_vec(), [&refused(r)[..], &[3]].concat());
                self.same("output after a refusal", out, before);
            }
        }
    }

    // Reading a written text gives the same sheet, unused bytes 0, and the same rules; written again they give the same
    // text.
    fn read_back(&mut self, s: &reference::Sheet, text: &[u8]) {
        let (rules, used) = (s.rules as usize, (s.names * s.exchanges) as usize);
        let room = rules + self.random.below(3) as usize;
        let (mut positive, mut negative) = (vec![5; room], vec![5; room]);
        let (mut numbers, mut images, mut reply) = ([3; 4], vec![3; 1024], [3; 4]);
        let returned = library::read(text, &mut positive, &mut negative, &mut numbers, &mut images, &mut reply);
        self.same("returned", returned, 1);
        if text.len() > 1 << 20 {
            return self.same("a text too long to be read", reply, [0, 1, 1 << 20, 0]);
        }
        self.same("read back", reply, [4, 0, 0, 0]);
        self.same("numbers read back", numbers, [s.names.into(), s.rules.into(), s.wish, s.exchanges.into()]);
        self.same("exchanges read back", &images, &[&s.bytes[..used], &vec![0; 1024 - used]].concat());
        self.same("yes read back", &positive[..rules], &s.yes[..]);
        self.same("no read back", &negative[..rules], &s.no[..]);
        positive.truncate(rules);
        negative.truncate(rules);
        let [variables, clauses, permutations] = [numbers[0], numbers[1], numbers[3]].map(|x| x as u32);
        let again = library::Sheet { variables, clauses, target: numbers[2], permutations, images, positive, negative };
        let (mut out, mut answer) = (vec![3; text.len()], [3; 4]);
        self.same("returned", library::write_sheet(&again, &mut out, &mut answer), 1);
        self.same("written again", (answer, &out[..]), ([5, text.len() as u64, 0, 0], text));
    }

    // A search over three slices, compared; the sheet, the reply and the slots.
    fn builder(&mut self) -> (reference::Sheet, Reply, Vec<Slot>) {
        let mut s = if self.random.chance(3) { near_sheet(&mut self.random) } else { sheet(&mut self.random) };
        if self.random.chance(4) {
            bend(&mut self.random, &mut s);
        }
        let most = if self.random.chance(400) { 65536 } else { *self.random.pick(&[0, 1, 2, 3, 5, 9, 40, 300, 5000]) };
        let lengths: Vec<usize> =
            (0..3).map(|_| most + self.random.below(3) as usize * self.random.below(2) as usize).collect();
        let (points, numbers, depths) =
            (self.random.filled(lengths[0]), self.random.filled(lengths[1]), self.random.filled(lengths[2]));
        let (numbers, depths) = (narrow(&numbers), narrow(&depths));
        let (mut left_points, mut left_numbers, mut left_depths) = (points.clone(), numbers.clone(), depths.clone());
        let mut reply = [3; 5];
        self.same(
            "returned",
            library::search(&lent(&s), &mut left_points, &mut left_numbers, &mut left_depths, &mut reply),
            1,
        );
        self.saw("search", &reply);
        let room = lengths.iter().copied().min().unwrap_or(0);
        let (wanted, slots) = reference::walk(&s, room);
        self.same("reply", reply.to_vec(), [&words(&wanted)[..], &[3]].concat());
        self.left("points", left_points, slots.iter().map(|t| t.point), &points);
        self.left("rule numbers", left_numbers, slots.iter().map(|t| t.rule), &numbers);
        self.left("depths", left_depths, slots.iter().map(|t| t.depth), &depths);
        if s.names <= 12 && !matches!(wanted, Reply::Refused(..)) {
            self.promises(&s, &wanted, &slots, room);
        }
        if let (Reply::Met { choice, changes, .. }, 0) = (&wanted, s.exchanges) {
            self.reordered(&s, room, (*choice, *changes));
        }
        (s, wanted, slots)
    }

    // What a slice holds afterwards: so many new entries, and behind them what was there before.
    fn left<T>(&mut self, what: &str, got: Vec<T>, new: impl ExactSizeIterator<Item = T>, before: &[T])
    where
        T: PartialEq + Copy + std::fmt::Debug,
    {
        let behind = before[new.len()..].to_vec();
        self.same(what, got, new.chain(behind).collect());
    }

    // Demand 3, by trying every choice; `slots` are those filled of so many lent.
    fn promises(&mut self, s: &reference::Sheet, reply: &Reply, slots: &[Slot], lent: usize) {
        let nearest = reference::nearest(s);
        match *reply {
            Reply::Met { choice, changes, .. } => {
                self.holds("met, and nearest", reference::satisfies(s, choice) && nearest == Some(changes));
                self.smallest(s, choice, slots);
            }
            Reply::Unmet { .. } => self.holds("none meets the rules", nearest.is_none()),
            Reply::NoRoom { least, .. } => self.holds(
                "a lower bound, and not enough slots",
                nearest.is_none_or(|d| d >= least) && lent < 1 << s.names,
            ),
            Reply::Refused(..) => {}
        }
    }

    // 2026-03, by trying every choice: "Among the nearest choices in the slots the one smallest as a number is now
    // handed back" and "Without exchanges a choice handed back is the smallest of all nearest choices on the whole
    // sheet".
    fn smallest(&mut self, s: &reference::Sheet, choice: u64, slots: &[Slot]) {
        let nearest = reference::nearest_choices(s);
        let filled: Vec<u64> = slots.iter().map(|t| t.point).filter(|x| nearest.contains(x)).collect();
        self.same("smallest in the slots", Some(&choice), filled.iter().min());
        if s.exchanges == 0 {
            self.same("smallest on the whole sheet", Some(&choice), nearest.first());
        }
        if nearest.len() > 1 {
            let what = if s.exchanges == 0 { "met, several as near" } else { "met, several as near, exchanges" };
            self.seen.push((what, SATISFIABLE, 0));
        }
    }

    // 2026-03: "the same house choice each time, however the client ordered the rules": without exchanges, and where
    // the sheet is met again. The slots filled may be others, and with them whether there is room.
    fn reordered(&mut self, s: &reference::Sheet, slots: usize, (choice, changes): (u64, u32)) {
        let other = lent(&shuffled(&mut self.random, s));
        let (mut points, mut numbers, mut depths) = (vec![5; slots], vec![5; slots], vec![5; slots]);
        let mut reply = [3; 4];
        library::search(&other, &mut points, &mut numbers, &mut depths, &mut reply);
        self.saw("search, rules shuffled", &reply);
        let bounded = reply[0] == UNKNOWN && reply[1] <= u64::from(changes);
        let again = reply[..3] == [SATISFIABLE, choice, u64::from(changes)];
        self.holds("the same choice with the rules in another order, or no room", again || bounded);
    }

    // The writer and the checker, on what a search left or on something near it.
    fn certificates(&mut self) {
        let (mut s, reply, slots) = self.builder();
        let mut points: Vec<u64> = slots.iter().map(|t| t.point).collect();
        let mut numbers: Vec<u32> = slots.iter().map(|t| t.rule).collect();
        let mut count = slots.len() as u32;
        let altered = self.random.chance(3);
        if altered {
            let k = self.random.below(points.len() as u64 + 1) as usize;
            match self.random.below(4) {
                0 => count = self.random.below(u64::from(count) + 3) as u32,
                1 => points.iter_mut().skip(k).take(1).for_each(|x| *x ^= 1),
                2 => numbers.iter_mut().skip(k).take(1).for_each(|x| *x = x.wrapping_add(1)),
                _ => bend(&mut self.random, &mut s),
            }
        }
        let depths =
            vec![0; (points.len() + self.random.below(3) as usize).saturating_sub(self.random.below(2) as usize)];
        let wanted = reference::write(&s, &points, &numbers, depths.len(), count, usize::MAX);
        let needed = wanted.as_ref().map_or(40, Vec::len);
        let room = needed + *self.random.pick(&[0, 0, 1, 9]) - usize::from(self.random.chance(4));
        let before = self.random.bytes(room);
        let (mut out, mut answer) = (before.clone(), [3; 5]);
        self.same("returned", library::write(&lent(&s), &points, &numbers, &depths, count, &mut out, &mut answer), 1);
        self.saw("write", &answer);
        match reference::write(&s, &points, &numbers, depths.len(), count, room) {
            Ok(file) => {
                self.same("written", answer.to_vec(), vec![5, file.len() as u64, 0, 0, 3]);
                self.same("output", out, [&file[..], &before[file.len()..]].concat());
            }
            Err(r) => {
                self.same("refused by the writer", answer.to_vec(), [&refused(r)[..], &[3]].concat());
                self.same("output after a refusal", out, before);
            }
        }
        if let Ok(file) = wanted {
            self.checked(&s, file, !altered && matches!(reply, Reply::Unmet { .. }));
        }
    }

    // A certificate, and the same with something damaged.
    fn checked(&mut self, sheet: &reference::Sheet, mut file: Vec<u8>, whole: bool) {
        let mut other = sheet.clone();
        let damaged = self.random.chance(2);
        if damaged && self.random.chance(4) {
            bend(&mut self.random, &mut other);
        } else if damaged {
            self.break_file(&mut file);
        }
        let s = &other;
        let mut reply = [3; 5];
        self.same("returned", library::check(&lent(s), &file, &mut reply), 1);
        self.saw("check", &reply);
        let wanted = reference::check(s, &file);
        let expected = wanted.map_or_else(refused, |()| vec![7, 0, 0, 0]);
        self.same("verdict", reply.to_vec(), [&expected[..], &[3]].concat());
        if whole && !damaged {
            self.holds("the certificate of a search is accepted", wanted.is_ok());
        }
        if wanted.is_ok() && s.names <= 12 {
            self.holds("an accepted certificate refutes", reference::nearest(s).is_none());
        }
        let (mut contents, mut opened) = ([3; 9], [3; 5]);
        self.same("returned", library::open(&file, &mut contents, &mut opened), 1);
        self.saw("open", &opened);
        let (words, numbers) = match reference::open(&file) {
            Ok(c) => (vec![6, 0, 0, 0, 3], c.iter().map(|&x| u64::from(x)).chain([3]).collect()),
            Err(r) => ([&refused(r)[..], &[3]].concat(), vec![3; 9]),
        };
        self.same("opened", opened.to_vec(), words);
        self.same("contents", contents.to_vec(), numbers);
    }

    fn break_file(&mut self, file: &mut Vec<u8>) {
        if self.random.chance(3) {
            return damage(&mut self.random, file);
        }
        let (n, listed) = (u64::from(file[0]), u64::from(file[8]));
        if n * listed > 1 && self.random.chance(2) {
            let own = 32 + self.random.below(listed) * n;
            let (a, b) = (own + self.random.below(n), own + self.random.below(n));
            return file.swap(a as usize, b as usize);
        }
        let field = self.random.below(8) as usize * 4;
        if field + 4 <= file.len() {
            let x = *self.random.pick(&[0, 1, 2, 17, 32, u32::MAX, 1 << 31, 65537]);
            file[field..field + 4].copy_from_slice(&x.to_le_bytes());
        }
    }

    // Where a slice for the answer is too short every function returns 0 and changes nothing.
    fn without_room(&mut self) {
        let (s, bytes) = (lent(&sheet(&mut self.random)), text(&mut self.random));
        let mut words = vec![3; self.random.below(4) as usize];
        let (mut points, mut numbers, mut depths, mut out) = ([5; 9], [5; 9], [5; 9], [5; 99]);
        let (mut positive, mut negative, mut four, mut images) = ([5; 300], [5; 300], [5; 4], [5; 1024]);
        let returned = [
            library::read(&bytes, &mut positive, &mut negative, &mut four, &mut images, &mut words),
            library::read(&bytes, &mut positive, &mut negative, &mut words, &mut images, &mut four),
            library::read(&bytes, &mut positive, &mut negative, &mut four, &mut images[..1023], &mut [0; 4]),
            library::search(&s, &mut points, &mut numbers, &mut depths, &mut words),
            library::write(&s, &points, &numbers, &depths, 1, &mut out, &mut words),
            library::check(&s, &bytes, &mut words),
            library::open(&bytes, &mut [0; 8], &mut words),
            library::open(&bytes, &mut words, &mut four),
            library::solve(&bytes, &mut points, &mut numbers, &mut depths, &mut out, &mut words),
            library::write_sheet(&s, &mut out, &mut words),
        ];
        self.same("returned without room", returned, [0; 10]);
        self.holds(
            "slots and output unchanged",
            points == [5; 9] && numbers == [5; 9] && depths == [5; 9] && out == [5; 99],
        );
        self.holds(
            "clauses and formula unchanged",
            positive == [5; 300] && negative == [5; 300] && four == [5; 4] && images == [5; 1024],
        );
        self.holds("words unchanged", words.iter().all(|&w| w == 3));
    }

    // One entry of each kind of body, the body being any bytes and the index any number.
    fn entries(&mut self) {
        let body: Vec<u8> = (0..self.random.below(70)).map(|_| self.random.next() as u8).collect();
        let far = [usize::MAX, 1 << 61, 1 << 62];
        let mut index =
            |most: u64| if self.random.chance(9) { *self.random.pick(&far) } else { self.random.below(most) as usize };
        let (n, j, i) = (index(9), index(9), index(20));
        let found = |value: Option<u64>| value.map_or([0, 0, 3], |x| [1, x, 3]);
        let place = n.checked_mul(j).and_then(|a| a.checked_add(i)).filter(|_| i < n);
        let image = place.and_then(|at| body.get(at)).map(|&b| u64::from(b));
        let whole = |width: usize| {
            body.chunks_exact(width).nth(i).map(|b| b.iter().rev().fold(0, |x, &b| x << 8 | u64::from(b)))
        };
        let mut replies = [[3; 3]; 3];
        let returned = [
            library::image_at(&body, n, j, i, &mut replies[0]),
            library::point_at(&body, i, &mut replies[1]),
            library::number_at(&body, i, &mut replies[2]),
        ];
        self.same("returned of entries", returned, [1; 3]);
        self.same("entries", replies, [found(image), found(whole(8)), found(whole(4))]);
    }

    // From text to checked certificate in one call, and what the program prints.
    fn solver(&mut self) {
        let mut bytes = text(&mut self.random);
        if self.random.chance(4) {
            damage(&mut self.random, &mut bytes);
        }
        let slots = *self.random.pick(&[0, 1, 4, 16, 300]);
        let room = *self.random.pick(&[0, 60, 4000]);
        let before = self.random.bytes(room);
        let (mut points, mut numbers, mut depths) = (vec![5; slots], vec![5; slots], vec![5; slots]);
        let (mut out, mut reply) = (before.clone(), [3; 5]);
        self.same("returned", library::solve(&bytes, &mut points, &mut numbers, &mut depths, &mut out, &mut reply), 1);
        self.saw("solve", &reply);
        let read = reference::read(&bytes, 4096, 4096);
        let walked = read.as_ref().map(|s| reference::walk(s, slots)).map_err(|&r| r);
        let (wanted, output) = match (&read, &walked) {
            (Ok(s), Ok((Reply::Unmet { slots: k }, left))) => {
                let xs: Vec<u64> = left.iter().map(|t| t.point).collect();
                let rs: Vec<u32> = left.iter().map(|t| t.rule).collect();
                let file = reference::write(s, &xs, &rs, slots, *k as u32, usize::MAX).expect("a certificate");
                if file.len() <= before.len() {
                    (vec![8, *k as u64, file.len() as u64, 0], [&file[..], &before[file.len()..]].concat())
                } else {
                    (vec![9, *k as u64, file.len() as u64, 0], before.clone())
                }
            }
            (Ok(_), Ok((reply, _))) => (words(reply), before.clone()),
            (Err(r), _) | (_, Err(r)) => (refused(*r), before.clone()),
        };
        self.same("solved", reply.to_vec(), [&wanted[..], &[3]].concat());
        self.same("output", out, output);
        let left = walked.map_or(Vec::new(), |w| w.1);
        let behind = slots - left.len();
        self.same("points", points, left.iter().map(|t| t.point).chain(vec![5; behind]).collect::<Vec<_>>());
        self.same("rule numbers", numbers, left.iter().map(|t| t.rule).chain(vec![5; behind]).collect::<Vec<_>>());
        self.same("depths", depths, left.iter().map(|t| t.depth).chain(vec![5; behind]).collect::<Vec<_>>());
        self.printed(&bytes);
    }

    // What the program prints: put where it fits, and its length in any case.
    fn printed(&mut self, bytes: &[u8]) {
        let wanted = reference::printed(bytes).into_bytes();
        let size = wanted.len();
        let room = *self.random.pick(&[0, size - 1, size, size + 9]);
        let before = self.random.bytes(room);
        let mut out = before.clone();
        self.same("bytes printed", library::nearest(bytes, &mut out), size);
        let left = if size <= room { [&wanted[..], &before[size..]].concat() } else { before };
        self.same("printed", out.escape_ascii().to_string(), left.escape_ascii().to_string());
    }
}

fn main() {
    let mut words = std::env::args().skip(1).map(|w| w.parse::<u64>().expect("a number"));
    let (seed, count) = (words.next().expect("a seed"), words.next().expect("a count"));
    let kinds: [(&str, fn(&mut Case)); 4] = [
        ("reader", Case::reader),
        ("search, writer and checker", Case::certificates),
        ("solver", Case::solver),
        ("writer of sheets", Case::sheet_writer),
    ];
    let mut failed = 0;
    let mut seen: BTreeMap<Answer, u64> = BTreeMap::new();
    for own in seed..seed + count {
        let kind = kinds[(own % 4) as usize];
        let mut case = Case { random: Random::new(own), wrong: Vec::new(), seen: Vec::new() };
        (kind.1)(&mut case);
        case.entries();
        if case.random.chance(20) {
            case.without_room();
        }
        case.seen.iter().for_each(|a| *seen.entry(*a).or_default() += 1);
        if !case.wrong.is_empty() {
            failed += 1;
            println!("seed {own} ({}): {}", kind.0, case.wrong.join("; "));
        }
    }
    let line = |((function, word, number), times): (Answer, u64)| {
        if word == 0 {
            format!("{function} refused {number}: {times}")
        } else {
            format!("{function} {word}: {times}")
        }
    };
    println!("answers by first word: {}", seen.into_iter().map(line).collect::<Vec<_>>().join(", "));
    println!("differential, seeds {seed} to {}: {} passed, {failed} failed", seed + count - 1, count - failed);
    if failed > 0 {
        std::process::exit(1);
    }
}
