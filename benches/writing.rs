// Writing sheets as texts beside the baseline's writer and beside reading what was written, in one run by turns: for
// each sheet handed over, and for the one whose rules are longest, which is too long to be read. Both writers give the
// same text, and reading it gives the sheet, or the program stops.
//
// Usage: writing SECONDS FILE .. (SECONDS: how long a measurement goes on). Prints a table of speeds in MB of text a
// second: writing with the output that always suffices, and with one as long as the text, which is measured first; the
// baseline; reading. Below are the geometric means of how many times as fast as the baseline and as reading it is to
// write with the output that always suffices, and the least of each.
mod baseline;
mod beside;
mod clock;
#[path = "../tests/library.rs"]
mod library;
#[path = "../tests/sheets.rs"]
mod sheets;
use library::{Sheet, PARSED, SHEET_ROOM, WRITTEN};
use std::hint::black_box;

// MB a second: writing with room and without a byte to spare, the baseline, and reading if the text is not too long.
struct Speeds {
    writing: [f64; 2],
    baseline: f64,
    reading: Option<f64>,
}

// What a text says, unless it is refused.
fn read(text: &[u8]) -> Option<Sheet> {
    let (mut positive, mut negative, mut images) = (vec![0; 4096], vec![0; 4096], vec![0; 1024]);
    let (mut numbers, mut reply) = ([0; 4], [9; 4]);
    assert_eq!(library::read(text, &mut positive, &mut negative, &mut numbers, &mut images, &mut reply), 1);
    let [variables, clauses, permutations] = [numbers[0], numbers[1], numbers[3]].map(|x| x as u32);
    positive.truncate(clauses as usize);
    negative.truncate(clauses as usize);
    let s = Sheet { variables, clauses, target: numbers[2], permutations, images, positive, negative };
    (reply[0] == PARSED).then_some(s)
}

// Writes a sheet to the front of some bytes, of which the text takes so many.
fn write(s: &Sheet, out: &mut [u8], length: usize) {
    let mut reply = [9; 4];
    assert_eq!(library::write_sheet(black_box(s), out, &mut reply), 1);
    assert_eq!(reply, [WRITTEN, length as u64, 0, 0]);
}

// The text of a sheet, by the baseline; the library gives the same, and the sheet back where it reads it.
fn text_of(s: &Sheet) -> Vec<u8> {
    let mut text = vec![0; SHEET_ROOM];
    let length = baseline::write_sheet(&beside::formula(s), beside::clauses(s), &mut text).expect("a sheet");
    let mut ours = vec![0; SHEET_ROOM];
    write(s, &mut ours, length);
    assert_eq!(ours, text);
    text.truncate(length);
    assert!(read(&text).is_none_or(|again| again == *s), "the sheet that is read back");
    text
}

fn measured(limit: f64, s: &Sheet, text: &[u8]) -> Speeds {
    let (f, c, length) = (beside::formula(s), beside::clauses(s), text.len());
    let (mut most, mut exact, mut theirs) = (vec![0; SHEET_ROOM], vec![0; length], vec![0; length]);
    let (mut positive, mut negative, mut images) = (vec![0; 4096], vec![0; 4096], [0; 1024]);
    let (mut numbers, mut reply) = ([0; 4], [9; 4]);
    let times = clock::least(
        limit,
        [
            &mut || write(s, &mut most, length),
            &mut || write(s, &mut exact, length),
            &mut || assert_eq!(baseline::write_sheet(&f, black_box(c), &mut theirs), Ok(length)),
            &mut || {
                library::read(black_box(text), &mut positive, &mut negative, &mut numbers, &mut images, &mut reply);
            },
        ],
    );
    let [room, spare, baseline, reading] = times.map(|seconds| length as f64 / seconds / 1e6);
    Speeds { writing: [room, spare], baseline, reading: (reply[0] == PARSED).then_some(reading) }
}

// Every rule lists all of 64 names both ways.
fn longest() -> Sheet {
    sheets::sheet(64, &vec![(u64::MAX, u64::MAX); 4096], &vec![(1..=64).collect(); 16])
}

// The geometric mean of some ratios, and the least of them.
fn summary(what: &str, ratios: &[f64]) {
    let mean = (ratios.iter().map(|ratio| ratio.ln()).sum::<f64>() / ratios.len() as f64).exp();
    let least = ratios.iter().copied().fold(f64::MAX, f64::min);
    println!("writing to {what}: geometric mean {mean:.2}, least {least:.2}, over {} sheets", ratios.len());
}

fn main() {
    let mut words = std::env::args().skip(1);
    let limit = words.next().and_then(|word| word.parse().ok()).expect("usage: writing SECONDS FILE ..");
    let named = |path: String| {
        let name = std::path::Path::new(&path).file_stem().and_then(|stem| stem.to_str()).expect("a name").to_string();
        Some((name, read(&std::fs::read(&path).expect("a sheet"))?))
    };
    let all = words.filter_map(named).chain([("longest rules".to_string(), longest())]);
    println!(
        "| sheet | text, bytes | write, MB/s | write, no byte to spare | baseline | read |\n|---|---|---|---|---|---|"
    );
    let (mut to_baseline, mut to_reading) = (Vec::new(), Vec::new());
    for (name, s) in all {
        let text = text_of(&s);
        let Speeds { writing: [room, spare], baseline, reading } = measured(limit, &s, &text);
        let read = reading.map_or("refused".to_string(), |speed| format!("{speed:.0}"));
        println!("| {name} | {} | {room:.0} | {spare:.0} | {baseline:.0} | {read} |", text.len());
        to_baseline.push(room / baseline);
        to_reading.extend(reading.map(|speed| room / speed));
    }
    summary("the baseline", &to_baseline);
    summary("reading", &to_reading);
}
