// Runs outside vectors against the compiled library, and those of the program `nearest` against the program too:
// compares each reply and all memory lent, prints a line for each disagreement and a count for each kind. Exit status
// 1 if anything differs. Usage: vectors FILE PROGRAM.
use std::collections::HashMap;
use std::fmt::Debug;
use std::io::{Read, Write};
use std::process::{Command, Stdio};

mod library;
use library::Sheet;

// A vector: its kind, its id, and the words behind each key.
struct Vector<'a> {
    kind: &'a str,
    id: &'a str,
    given: HashMap<&'a str, Vec<&'a str>>,
}

impl<'a> Vector<'a> {
    fn words(&self, key: &str) -> &[&'a str] {
        self.given.get(key).map(|w| w.as_slice()).unwrap_or(&[])
    }

    fn numbers(&self, key: &str) -> Vec<u64> {
        self.words(key).iter().map(|w| w.parse().expect("a number")).collect()
    }

    fn bytes(&self, key: &str) -> Vec<u8> {
        self.words(key).iter().flat_map(|w| run(w)).collect()
    }

    // Before the call place i of every lent slice holds fill + i.
    fn filled(&self, len: usize) -> Vec<u64> {
        let fill = self.numbers("fill")[0];
        (0..len).map(|i| fill.wrapping_add(i as u64)).collect()
    }

    fn sheet(&self) -> Sheet {
        let (numbers, images) = formula(self.words("sheet"));
        Sheet {
            variables: numbers[0] as u32,
            clauses: numbers[1] as u32,
            target: numbers[2],
            permutations: numbers[3] as u32,
            images,
            positive: self.numbers("yes"),
            negative: self.numbers("no"),
        }
    }
}

// A formula's four numbers and its 1,024 bytes of images.
fn formula(words: &[&str]) -> (Vec<u64>, Vec<u8>) {
    let numbers = words[..4].iter().map(|w| w.parse().expect("a number")).collect();
    let mut images: Vec<u8> = words[4..].iter().flat_map(|w| run(w)).collect();
    images.resize(1024, 0);
    (numbers, images)
}

// One run of bytes: H:hex:times or U:first:count.
fn run(word: &str) -> Vec<u8> {
    let parts: Vec<&str> = word.split(':').collect();
    let count: usize = parts[2].parse().expect("a count");
    if parts[0] == "U" {
        let first: u64 = parts[1].parse().expect("a number");
        return (0..count as u64).flat_map(|i| (first + i).to_le_bytes()).collect();
    }
    let digits = parts[1].as_bytes();
    let bytes: Vec<u8> =
        digits.chunks(2).map(|p| u8::from_str_radix(std::str::from_utf8(p).expect("text"), 16).expect("hex")).collect();
    bytes.repeat(count)
}

// What should stand in a slice afterwards: the new contents, then what was there.
fn over<T: Copy>(new: Vec<T>, old: &[T]) -> Vec<T> {
    let rest = old[new.len()..].to_vec();
    [new, rest].concat()
}

fn narrow(xs: Vec<u64>) -> Vec<u32> {
    xs.into_iter().map(|x| x as u32).collect()
}

// Collects what differs of one vector.
struct Differences(Vec<String>);

impl Differences {
    fn compare<T: PartialEq + Debug>(&mut self, what: &str, got: T, wanted: T) {
        if got != wanted {
            let mut line = format!("{what}: got {got:?}, wanted {wanted:?}");
            line.truncate(300);
            self.0.push(line);
        }
    }
}

// The words of a reply: 0 refused, 1 satisfiable, 2 unsatisfiable, 3 unknown, 4 read, 5 written, 6 opened, 7
// accepted, each with its numbers.
fn reply_words(answer: &[&str]) -> Vec<u64> {
    let (kind, carried) = match answer[0] {
        "refused" => (0, &answer[1..]),
        "met" => (1, &answer[1..]),
        "unmet" => (2, &answer[1..]),
        "room" => (3, &answer[1..]),
        "read" => (4, &answer[..0]),
        "written" => (5, &answer[1..]),
        "opened" => (6, &answer[..0]),
        "accepted" => (7, &answer[..0]),
        other => panic!("no reply: {other}"),
    };
    let mut words = vec![kind];
    words.extend(carried.iter().map(|w| w.parse::<u64>().expect("a number")));
    words.resize(4, 0);
    words
}

fn reader(v: &Vector, d: &mut Differences) {
    let lent = v.numbers("lent");
    let mut positive = v.filled(lent[0] as usize);
    let mut negative = v.filled(lent[1] as usize);
    let before = (positive.clone(), negative.clone());
    let (mut numbers, mut images, mut reply) = (vec![7u64; 5], vec![7u8; 1025], vec![7u64; 5]);
    let returned =
        library::read(&v.bytes("bytes"), &mut positive, &mut negative, &mut numbers, &mut images, &mut reply);
    let answer = v.words("answer");
    let wanted = if answer[0] == "read" { formula(&answer[1..]) } else { (vec![], vec![]) };
    d.compare("returned", returned, 1);
    d.compare("reply", reply, over(reply_words(answer), &[7; 5]));
    d.compare("numbers", numbers, over(wanted.0, &[7; 5]));
    d.compare("images", images, over(wanted.1, &[7; 1025]));
    d.compare("positive", positive, over(v.numbers("after-yes"), &before.0));
    d.compare("negative", negative, over(v.numbers("after-no"), &before.1));
}

fn builder(v: &Vector, d: &mut Differences) {
    let s = v.sheet();
    let lent = v.numbers("lent");
    let mut points = v.filled(lent[0] as usize);
    let mut falsified = narrow(v.filled(lent[1] as usize));
    let mut depths = narrow(v.filled(lent[2] as usize));
    let before = (points.clone(), falsified.clone(), depths.clone());
    let mut reply = vec![7u64; 5];
    let returned = library::search(&s, &mut points, &mut falsified, &mut depths, &mut reply);
    d.compare("returned", returned, 1);
    d.compare("reply", reply, over(reply_words(v.words("answer")), &[7; 5]));
    d.compare("points", points, over(v.numbers("after-points"), &before.0));
    d.compare("clause numbers", falsified, over(narrow(v.numbers("after-numbers")), &before.1));
    d.compare("depths", depths, over(narrow(v.numbers("after-depths")), &before.2));
}

fn writer(v: &Vector, d: &mut Differences) {
    let s = v.sheet();
    let lent = v.numbers("lent");
    let points = v.numbers("points");
    let falsified = narrow(v.numbers("numbers"));
    let depths = narrow(v.filled(lent[0] as usize));
    let mut out: Vec<u8> = v.filled(lent[2] as usize).into_iter().map(|x| x as u8).collect();
    let before = out.clone();
    let mut reply = vec![7u64; 5];
    let returned = library::write(&s, &points, &falsified, &depths, lent[1] as u32, &mut out, &mut reply);
    d.compare("returned", returned, 1);
    d.compare("reply", reply, over(reply_words(v.words("answer")), &[7; 5]));
    d.compare("output", out, over(v.bytes("after-bytes"), &before));
}

fn sheet_writer(v: &Vector, d: &mut Differences) {
    let before: Vec<u8> = v.filled(v.numbers("lent")[0] as usize).into_iter().map(|x| x as u8).collect();
    let (mut out, mut reply) = (before.clone(), vec![7u64; 5]);
    let returned = library::write_sheet(&v.sheet(), &mut out, &mut reply);
    d.compare("returned", returned, 1);
    d.compare("reply", reply, over(reply_words(v.words("answer")), &[7; 5]));
    d.compare("output", out, over(v.bytes("after-bytes"), &before));
}

// The same sheet written with the room that always suffices: nothing is refused by 19, whose place is the length.
fn sheet_writer_with_room(v: &Vector, d: &mut Differences) {
    let before = vec![7u8; library::SHEET_ROOM];
    let (mut out, mut reply) = (before.clone(), vec![7u64; 5]);
    let returned = library::write_sheet(&v.sheet(), &mut out, &mut reply);
    let mut words = reply_words(v.words("answer"));
    let short = words[..2] == [library::REFUSED, 19];
    if short {
        words = vec![library::WRITTEN, words[2], 0, 0];
    }
    d.compare("returned", returned, 1);
    d.compare("reply", reply, over(words.clone(), &[7; 5]));
    if short {
        let length = words[1] as usize;
        d.compare(
            "last byte of the text, and those behind it",
            &out[length - 1..],
            &over(vec![10], &before[length - 1..]),
        );
    } else {
        d.compare("output", out, over(v.bytes("after-bytes"), &before));
    }
}

// The same sheet searched over one slice of slots, as many as the shortest of the three slices has: the reply and the
// slots are the parallel form's.
fn builder_slots(v: &Vector, d: &mut Differences) {
    let s = v.sheet();
    let n = v.numbers("lent").into_iter().min().expect("three lengths") as usize;
    let mut points = v.filled(n);
    let (mut falsified, mut depths) = (narrow(v.filled(n)), narrow(v.filled(n)));
    let mut slots = library::joined(&points, &falsified, &depths);
    let (mut reply, mut wanted) = (vec![7u64; 5], vec![7u64; 5]);
    let returned = library::search_slots(&s, &mut slots, &mut reply);
    d.compare("returned", returned, library::search(&s, &mut points, &mut falsified, &mut depths, &mut wanted));
    d.compare("reply", &reply, &wanted);
    d.compare("reply of the vector", reply, over(reply_words(v.words("answer")), &[7; 5]));
    d.compare("slots", slots, library::joined(&points, &falsified, &depths));
}

// The same certificate written from one slice of slots.
fn writer_slots(v: &Vector, d: &mut Differences) {
    let s = v.sheet();
    let lent = v.numbers("lent");
    let slots =
        library::joined(&v.numbers("points"), &narrow(v.numbers("numbers")), &narrow(v.filled(lent[0] as usize)));
    let mut out: Vec<u8> = v.filled(lent[2] as usize).into_iter().map(|x| x as u8).collect();
    let before = out.clone();
    let mut reply = vec![7u64; 5];
    let returned = library::write_slots(&s, &slots, lent[1] as u32, &mut out, &mut reply);
    d.compare("returned", returned, 1);
    d.compare("reply", reply, over(reply_words(v.words("answer")), &[7; 5]));
    d.compare("output", out, over(v.bytes("after-bytes"), &before));
}

fn checker(v: &Vector, d: &mut Differences) {
    let file = v.bytes("bytes");
    let mut reply = vec![7u64; 5];
    let returned = library::check(&v.sheet(), &file, &mut reply);
    d.compare("returned", returned, 1);
    d.compare("reply", reply, over(reply_words(v.words("answer")), &[7; 5]));
    if v.given.contains_key("reading") {
        reading(v, &file, d);
    }
}

// The reading of a file without checking it: its contents, then each body, cut by the contents' offsets.
fn reading(v: &Vector, file: &[u8], d: &mut Differences) {
    let words = v.words("reading");
    let (images, points, numbers) = (v.bytes("read-images"), v.numbers("read-points"), v.numbers("read-numbers"));
    let mut wanted = vec![7u64; 9];
    if words[0] == "opened" {
        let sizes: Vec<u64> = words[1..].iter().map(|w| w.parse().expect("a number")).collect();
        let (second, count) = (32 + images.len() as u64, points.len() as u64);
        let third = second + 8 * count;
        wanted = over(vec![sizes[0], sizes[1], sizes[2], 32, count, second, count, third], &wanted);
    }
    let (mut contents, mut reply) = (vec![7u64; 9], vec![7u64; 5]);
    let returned = library::open(file, &mut contents, &mut reply);
    d.compare("opened", returned, 1);
    d.compare("reply to opening", reply, over(reply_words(words), &[7; 5]));
    d.compare("contents", &contents, &wanted);
    if words[0] == "opened" && contents == wanted {
        let part = |from: u64, to: u64| &file[from as usize..to as usize];
        let n = contents[0] as usize;
        read_images(part(contents[3], contents[5]), n, &images, d);
        read_body("point", &points, d, |i, reply| library::point_at(part(contents[5], contents[7]), i, reply));
        read_body("number", &numbers, d, |i, reply| library::number_at(part(contents[7], file.len() as u64), i, reply));
    }
}

// Every entry of a body, and the one past its end, which lies outside.
fn read_body(what: &str, wanted: &[u64], d: &mut Differences, at: impl Fn(usize, &mut [u64]) -> u32) {
    for i in 0..=wanted.len() {
        let entry = wanted.get(i).map_or([0, 0, 7], |&x| [1, x, 7]);
        let mut reply = [7; 3];
        let returned = at(i, &mut reply);
        d.compare(&format!("{what} of index {i}"), (returned, reply), (1, entry));
    }
}

// Every image; outside lie the first one of a further permutation and one of a further variable.
fn read_images(body: &[u8], n: usize, wanted: &[u8], d: &mut Differences) {
    let wanted: Vec<u64> = wanted.iter().map(|&x| x as u64).collect();
    let width = n.max(1);
    read_body("image", &wanted, d, |k, reply| library::image_at(body, n, k / width, k % width, reply));
    let mut reply = [7; 3];
    let returned = library::image_at(body, n, 0, n, &mut reply);
    d.compare("image of a variable above n", (returned, reply), (1, [0, 0, 7]));
}

// What the program prints: with room behind it, exactly fitting, one byte short and with no room at all.
fn nearest(v: &Vector, d: &mut Differences) {
    let text = v.bytes("bytes");
    let wanted = v.bytes("after-bytes");
    let size = wanted.len();
    for room in [size + 5, size, size - 1, 0] {
        let before = vec![7u8; room];
        let mut out = before.clone();
        d.compare(&format!("count, room for {room}"), library::nearest(&text, &mut out), size);
        let left = if size <= room { over(wanted.clone(), &before) } else { before };
        d.compare(&format!("output, room for {room}"), out, left);
    }
    let program = std::env::args().nth(2).expect("the program");
    d.compare("standard output", run_program(&program, &text), wanted);
}

// What the program prints for an input that it is handed in two pieces, so that it sees short reads.
fn run_program(program: &str, input: &[u8]) -> Vec<u8> {
    let mut child = Command::new(program).stdin(Stdio::piped()).stdout(Stdio::piped()).spawn().expect("the program");
    let mut stdin = child.stdin.take().expect("its standard input");
    let (front, back) = input.split_at(input.len() / 2);
    for piece in [front, back] {
        // the program stops reading an input that is too long, and that is no fault
        let _ = stdin.write_all(piece);
        let _ = stdin.flush();
    }
    drop(stdin);
    let mut printed = Vec::new();
    child.stdout.take().expect("its standard output").read_to_end(&mut printed).expect("what it prints");
    child.wait().expect("its end");
    printed
}

fn vectors(text: &str) -> Vec<Vector<'_>> {
    let blocks = text.split("\n\n").filter(|b| !b.trim().is_empty());
    blocks
        .map(|block| {
            let mut given = HashMap::new();
            for line in block.lines() {
                let mut words = line.split(' ');
                given.insert(words.next().expect("a key"), words.collect::<Vec<&str>>());
            }
            let name = given["vector"].clone();
            Vector { kind: name[0], id: name[1], given }
        })
        .collect()
}

fn main() {
    let path = std::env::args().nth(1).expect("a file of vectors");
    let text = std::fs::read_to_string(path).expect("the vectors");
    let kinds: [(&str, &str, fn(&Vector, &mut Differences)); 9] = [
        ("reader", "", reader),
        ("builder", "", builder),
        ("builder", " over slots", builder_slots),
        ("checker", "", checker),
        ("writer", "", writer),
        ("writer", " from slots", writer_slots),
        ("nearest", "", nearest),
        ("write_sheet", "", sheet_writer),
        ("write_sheet", " with room", sheet_writer_with_room),
    ];
    let all = vectors(&text);
    if let Some(v) = all.iter().find(|v| kinds.iter().all(|kind| kind.0 != v.kind)) {
        println!("{}: no vector of the kind {} is run: add a function for it to tests/vectors.rs", v.id, v.kind);
        std::process::exit(1);
    }
    let (mut passed, mut failed) = (0, 0);
    for (kind, form, test) in kinds {
        let (mut run, mut wrong) = (0, 0);
        for v in all.iter().filter(|v| v.kind == kind) {
            let mut d = Differences(Vec::new());
            test(v, &mut d);
            run += 1;
            if !d.0.is_empty() {
                wrong += 1;
                println!("{}{form}: {}", v.id, d.0.join("; "));
            }
        }
        println!("{kind} vectors{form}: {wrong} of {run} differ");
        passed += run - wrong;
        failed += wrong;
    }
    println!("vectors: {passed} passed, {failed} failed");
    if failed > 0 {
        std::process::exit(1);
    }
}
