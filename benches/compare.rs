// The library beside baseline.rs, an implementation of document 01 in plain Rust that was written for speed: same
// inputs, same run, and the same answers, or the program stops. For each sheet handed over: reading it, writing it as a
// text, with the output that always suffices and with one as long as the text, searching with 4,096 and with 65,536
// slots, where no point satisfies it writing and checking the certificate, and the whole in one call, from the text to
// the answer, with 4,096 slots. Both take turns, and the least time counts.
//
// The ratio is the baseline's time to the library's: above 1 the library is faster. Rows stand with the worst ratio
// last; below them is for each step the geometric mean, the worst ratio and how many rows are below 1.
//
// Usage: compare SECONDS FILE .. (SECONDS: how long a measurement goes on) prints a table; compare --rows SECONDS FILE
// .. times the library alone and prints sheet, step and microseconds, parted by tabs.
mod baseline;
mod beside;
mod clock;
#[path = "../tests/library.rs"]
mod library;
use baseline::{Answer, Refusal, Slots};
use beside::{clauses, formula, told, words};
use clock::least;
use library::{Sheet, ACCEPTED, CERTIFIED, PARSED, SHEET_ROOM, UNSATISFIABLE, WRITTEN};
use std::hint::black_box;

const FEW: usize = 4096;
const MANY: usize = 65536;

struct Row {
    sheet: String,
    step: &'static str,
    detail: String,
    bytes: Option<usize>,
    library: f64,
    baseline: f64,
}

impl Row {
    fn ratio(&self) -> f64 {
        self.baseline / self.library
    }
}

// How a sheet is measured: each step for so many seconds, the library alone or not; and the rows so far.
struct Measuring {
    limit: f64,
    alone: bool,
    rows: Vec<Row>,
}

impl Measuring {
    // A row, of which `bytes` are read or written where a speed is told. Both answer the same words before they are
    // timed.
    fn row(
        &mut self,
        (sheet, step, detail): (&str, &'static str, String),
        bytes: Option<usize>,
        mut library: impl FnMut() -> [u64; 4],
        mut baseline: impl FnMut() -> [u64; 4],
    ) {
        assert_eq!(library(), baseline(), "{sheet}, {step}");
        let mut ours = || {
            black_box(library());
        };
        let mut theirs = || {
            black_box(baseline());
        };
        let [library, baseline] = if self.alone {
            [least(self.limit, [&mut ours])[0], f64::NAN]
        } else {
            least(self.limit, [&mut ours, &mut theirs])
        };
        let sheet = sheet.to_string();
        self.rows.push(Row { sheet, step, detail, bytes, library: library * 1e6, baseline: baseline * 1e6 });
    }

    fn sheet(&mut self, name: &str, text: &[u8]) {
        if let Some(s) = self.reading(name, text) {
            self.writing(name, &s);
            let few = self.searching(name, &s, "search, 4096 slots lent", FEW);
            let many = self.searching(name, &s, "search, 65536 slots lent", MANY);
            if let Some((slots, filled)) = few.or(many) {
                self.certifying(name, &s, &slots, filled);
            }
        }
        self.solving(name, text);
    }

    // Answers the sheet unless it is refused.
    fn reading(&mut self, name: &str, text: &[u8]) -> Option<Sheet> {
        let (mut p, mut q, mut numbers, mut images, mut reply) =
            (vec![0; 4096], vec![0; 4096], [0; 4], [0; 1024], [9; 4]);
        let (mut positive, mut negative) = (p.clone(), q.clone());
        self.row(
            (name, "read", format!(" {} bytes", text.len())),
            Some(text.len()),
            || {
                assert_eq!(library::read(black_box(text), &mut p, &mut q, &mut numbers, &mut images, &mut reply), 1);
                reply
            },
            || words(&baseline::read(black_box(text), &mut positive, &mut negative), |_| [PARSED, 0, 0, 0]),
        );
        let f = baseline::read(text, &mut positive, &mut negative).ok()?;
        assert_eq!((p, q), (positive.clone(), negative.clone()));
        assert_eq!(numbers, [f.variables.into(), f.clauses.into(), f.target, f.permutations.into()]);
        assert_eq!(images, f.images);
        positive.truncate(f.clauses as usize);
        negative.truncate(f.clauses as usize);
        Some(Sheet {
            variables: f.variables,
            clauses: f.clauses,
            target: f.target,
            permutations: f.permutations,
            images: images.to_vec(),
            positive,
            negative,
        })
    }

    fn writing(&mut self, name: &str, s: &Sheet) {
        let (f, c, mut reply) = (&formula(s), clauses(s), [9; 4]);
        let length = baseline::write_sheet(f, c, &mut vec![0; SHEET_ROOM]).expect("a sheet that was read");
        for (step, room) in [("write_sheet, 1846470 bytes lent", SHEET_ROOM), ("write_sheet, no byte to spare", length)]
        {
            let (mut ours, mut theirs) = (vec![0; room], vec![0; room]);
            self.row(
                (name, step, format!(", {length} bytes")),
                Some(length),
                || {
                    assert_eq!(library::write_sheet(black_box(s), &mut ours, &mut reply), 1);
                    reply
                },
                || words(&baseline::write_sheet(f, black_box(c), &mut theirs), |&size| [WRITTEN, size as u64, 0, 0]),
            );
            assert_eq!(ours, theirs);
        }
    }

    // Answers the slots and how many are filled where no point satisfies the clauses.
    fn searching(&mut self, name: &str, s: &Sheet, step: &'static str, room: usize) -> Option<(Slots, usize)> {
        let (mut ours, mut theirs, mut reply) = (Slots::new(room), Slots::new(room), [9; 4]);
        let (f, c) = (&formula(s), clauses(s));
        let filled = filled(&theirs.search(f, c));
        self.row(
            (name, step, format!(", {filled} filled")),
            None,
            || {
                assert_eq!(library::search(s, &mut ours.points, &mut ours.numbers, &mut ours.depths, &mut reply), 1);
                reply
            },
            || words(&theirs.search(f, black_box(c)), told),
        );
        assert_eq!(ours, theirs);
        (reply[0] == UNSATISFIABLE).then_some((ours, filled))
    }

    fn certifying(&mut self, name: &str, s: &Sheet, slots: &Slots, filled: usize) {
        let (mut ours, mut reply) = (vec![0; 32 + 1024 + 12 * filled], [9; 4]);
        let (f, c, mut theirs) = (&formula(s), clauses(s), ours.clone());
        let (points, numbers, depths) = (&slots.points, &slots.numbers, &slots.depths);
        let length = slots.write(f, c, filled, &mut theirs).expect("the slots of a search");
        self.row(
            (name, "write", format!(" {length} bytes")),
            None,
            || {
                assert_eq!(library::write(s, points, numbers, depths, filled as u32, &mut ours, &mut reply), 1);
                reply
            },
            || words(&slots.write(f, c, filled, &mut theirs), |&length| [WRITTEN, length as u64, 0, 0]),
        );
        assert_eq!(ours, theirs);
        let file = &ours[..length];
        self.row(
            (name, "check", format!(" {length} bytes")),
            None,
            || {
                assert_eq!(library::check(s, black_box(file), &mut reply), 1);
                reply
            },
            || words(&baseline::check(f, c, black_box(file)), |_| [ACCEPTED, 0, 0, 0]),
        );
    }

    fn solving(&mut self, name: &str, text: &[u8]) {
        let (mut ours, mut theirs, mut reply) = (Slots::new(FEW), Slots::new(FEW), [9; 4]);
        let (mut out, mut p, mut q) = (vec![0; 32 + 1024 + 12 * FEW], vec![0; 4096], vec![0; 4096]);
        let mut other = out.clone();
        let answer = |&(answer, length): &(Answer, usize)| match answer {
            Answer::Unsatisfiable { filled } => [CERTIFIED, filled as u64, length as u64, 0],
            _ => told(&answer),
        };
        self.row(
            (name, "solve", ", 4096 slots lent".to_string()),
            None,
            || {
                let Slots { points, numbers, depths } = &mut ours;
                assert_eq!(library::solve(black_box(text), points, numbers, depths, &mut out, &mut reply), 1);
                reply
            },
            || words(&baseline::solve(black_box(text), [&mut p, &mut q], &mut theirs, &mut other), answer),
        );
        assert_eq!((ours, out), (theirs, other));
    }
}

fn filled(found: &Result<Answer, Refusal>) -> usize {
    match found {
        Ok(Answer::Satisfiable { filled, .. } | Answer::Unsatisfiable { filled } | Answer::Unknown { filled, .. }) => {
            *filled
        }
        Err(_) => 0,
    }
}

// The rows, the worst ratio last, and what they come to by step.
fn table(mut rows: Vec<Row>) {
    rows.sort_by(|a, b| b.ratio().total_cmp(&a.ratio()));
    println!("| sheet | step | library, µs | baseline, µs | ratio | library, MB/s |\n|---|---|---|---|---|---|");
    for r in &rows {
        let speed = r.bytes.map_or(String::new(), |bytes| format!("{:.0} ", bytes as f64 / r.library));
        let (step, ratio) = (format!("{}{}", r.step, r.detail), r.ratio());
        println!("| {} | {step} | {:.3} | {:.3} | {ratio:.2} | {speed}|", r.sheet, r.library, r.baseline);
    }
    let mut steps: Vec<&str> = rows.iter().map(|r| r.step).collect();
    steps.sort();
    steps.dedup();
    for step in steps {
        let of: Vec<&Row> = rows.iter().filter(|r| r.step == step).collect();
        let mean = (of.iter().map(|r| r.ratio().ln()).sum::<f64>() / of.len() as f64).exp();
        let slower = of.iter().filter(|r| r.ratio() < 1.0).count();
        let worst = of[of.len() - 1];
        println!(
            "{step}: geometric mean {mean:.2}, worst {:.2} ({}), {slower} of {} rows below 1.0",
            worst.ratio(),
            worst.sheet,
            of.len()
        );
    }
}

fn main() {
    let mut words = std::env::args().skip(1).peekable();
    let alone = words.next_if(|word| word == "--rows").is_some();
    let limit = words.next().and_then(|word| word.parse().ok()).expect("seconds");
    let mut measuring = Measuring { limit, alone, rows: Vec::new() };
    for path in words {
        let name = std::path::Path::new(&path).file_stem().and_then(|stem| stem.to_str()).expect("a name");
        measuring.sheet(name, &std::fs::read(&path).expect("a sheet"));
    }
    if alone {
        measuring.rows.iter().for_each(|r| println!("{}\t{}{}\t{:.3}", r.sheet, r.step, r.detail, r.library));
    } else {
        table(measuring.rows);
    }
}
