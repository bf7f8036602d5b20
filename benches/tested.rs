// How many points a search tests, before request 2026-03 and now: before, the walk tested each point where it processed
// it, and answered with the first that meets the rules; now "on first taking a point of a new depth" it "tests all
// unprocessed points of that depth before it processes any". For each sheet handed over, with 4,096 slots lent, and
// with 65,536 where there was no room: the answer, the slots filled and the points tested, of both. A search that ends
// in 'cannot be met' tests each of its slots once, before as now: these are only counted. The walk stands here a second
// time, so that it can count; where it goes by levels its answer is the baseline's, or the program stops. Usage: tested
// FILE ..
mod baseline;
use baseline::{each, Answer, Clauses, Formula, Known, Slots};
use std::collections::HashSet;

const ROOMS: [usize; 2] = [4096, 65536];

// What a walk comes to, and how many points it tested.
#[derive(Clone, Copy)]
struct Walked {
    answer: Answer,
    tested: usize,
}

// Tests the slots from a place on, one or all of those that wait; the smallest point that meets the rules.
fn test(clauses: Clauses, level: &[(u64, u32)], tested: &mut usize) -> Option<u64> {
    *tested += level.len();
    level.iter().map(|slot| slot.0).filter(|&point| clauses.lowest(point).is_none()).min()
}

// The walk, by levels or as it was.
fn walk(formula: &Formula, clauses: Clauses, room: usize, levels: bool) -> Walked {
    let permutations = clauses.kept_by(formula.permutations, formula.variables, &formula.images);
    let mut known =
        Known::new(HashSet::from([formula.target]), permutations.expect("permutations that keep the rules"));
    let (mut slots, mut next, mut tested) = (vec![(formula.target, 0)], 0, 0);
    while next < slots.len() {
        let (point, depth) = slots[next];
        let end = if levels { slots.len() } else { next + 1 };
        if tested == next {
            if let Some(point) = test(clauses, &slots[next..end], &mut tested) {
                let changes = (point ^ formula.target).count_ones();
                return Walked { answer: Answer::Satisfiable { point, changes, filled: slots.len() }, tested };
            }
        }
        let clause = clauses.lowest(point).expect("a point that was tested and meets not all rules");
        known.made = false;
        for variable in each(clauses.variables(clause)) {
            if known.covers(point, variable) {
                continue;
            }
            if slots.len() == room {
                let bound = if levels { depth + 1 } else { depth };
                return Walked { answer: Answer::Unknown { bound, filled: room }, tested };
            }
            slots.push((point ^ 1 << variable, depth + 1));
            known.points.insert(point ^ 1 << variable);
        }
        next += 1;
    }
    Walked { answer: Answer::Unsatisfiable { filled: slots.len() }, tested }
}

// An answer in document 01's words, and the slots filled.
fn told(answer: Answer) -> (String, usize) {
    match answer {
        Answer::Satisfiable { changes, filled, .. } => (format!("met, changes {changes}"), filled),
        Answer::Unsatisfiable { filled } => ("cannot be met".to_string(), filled),
        Answer::Unknown { bound, filled } => (format!("no room, {bound}"), filled),
    }
}

// Prints a row unless the sheet cannot be met; both answers.
fn row(name: &str, formula: &Formula, clauses: Clauses, room: usize) -> [Answer; 2] {
    let [before, now] = [false, true].map(|levels| walk(formula, clauses, room, levels));
    let found = Slots::new(room).search(formula, clauses).expect("a sheet that is not refused");
    assert_eq!(now.answer, found, "{name}: the baseline");
    if let Answer::Unsatisfiable { filled } = now.answer {
        assert_eq!((before.answer, before.tested, now.tested), (now.answer, filled, filled), "{name}");
    } else {
        let ((was, were), (is, are)) = (told(before.answer), told(now.answer));
        let times = now.tested as f64 / before.tested as f64;
        let (first, second) = (before.tested, now.tested);
        println!("| {name} | {room} | {was} | {were} | {first} | {is} | {are} | {second} | {times:.2} |");
    }
    [before.answer, now.answer]
}

// The rows of a sheet; whether it cannot be met. An answer other than 'no room' stays when more slots are lent.
fn rows(name: &str, formula: &Formula, clauses: Clauses) -> bool {
    for room in ROOMS {
        let answers = row(name, formula, clauses, room);
        if !answers.iter().any(|answer| matches!(answer, Answer::Unknown { .. })) {
            return matches!(answers[1], Answer::Unsatisfiable { .. });
        }
    }
    false
}

fn main() {
    println!(
        "| sheet | slots lent | before | slots filled | points tested | now | slots filled | points tested | times |"
    );
    println!("|---|---|---|---|---|---|---|---|---|");
    let mut unmet = 0;
    for path in std::env::args().skip(1) {
        let name = std::path::Path::new(&path).file_stem().and_then(|stem| stem.to_str()).expect("a name");
        let text = std::fs::read(&path).expect("a sheet");
        let (mut positive, mut negative) = (vec![0; 4096], vec![0; 4096]);
        let Ok(formula) = baseline::read(&text, &mut positive, &mut negative) else { continue };
        let count = formula.clauses as usize;
        let clauses = Clauses { positive: &positive[..count], negative: &negative[..count] };
        unmet += usize::from(rows(name, &formula, clauses));
    }
    println!("{unmet} sheets cannot be met: their searches test as many points as before, each slot filled once");
}
