// Certificates: those of document 01's worked cases byte for byte, document 002's 14 points as a certificate from
// elsewhere, whole and with one field damaged at a time, certificates at the sizes of the checker's arrays, and
// everything from a text to a checked certificate, in one call and step by step. Prints a line a case and a count; exit
// status 1 if one is not as expected.
mod library;
mod sheets;
use library::{
    Count, Sheet, ACCEPTED, CERTIFIED, OPENED, PARSED, REFUSED, SATISFIABLE, UNCERTIFIED, UNKNOWN, UNSATISFIABLE,
    WRITTEN,
};
use sheets::{formula_a, paper, pigeons, search, sheet, swaps, text, Found};

// A certificate by hand: the eight 32-bit numbers of the contents, then the bodies.
struct File {
    contents: [u32; 8],
    images: Vec<u8>,
    points: Vec<u64>,
    numbers: Vec<u32>,
}

impl File {
    // Contents that fit the bodies; a body of permutations has n bytes each.
    fn new(n: u32, m: u32, images: &[u8], points: &[u64], numbers: &[u32]) -> File {
        let (second, count) = (32 + images.len() as u32, points.len() as u32);
        let contents = [n, m, images.len() as u32 / n, 32, count, second, numbers.len() as u32, second + 8 * count];
        File { contents, images: images.to_vec(), points: points.to_vec(), numbers: numbers.to_vec() }
    }

    fn bytes(&self) -> Vec<u8> {
        let contents = self.contents.iter().flat_map(|x| x.to_le_bytes());
        let points = self.points.iter().flat_map(|x| x.to_le_bytes());
        let numbers = self.numbers.iter().flat_map(|x| x.to_le_bytes());
        contents.chain(self.images.iter().copied()).chain(points).chain(numbers).collect()
    }
}

// Bytes from hexadecimal digits in groups.
fn hex(groups: &str) -> Vec<u8> {
    let digits: Vec<u32> = groups.chars().filter_map(|c| c.to_digit(16)).collect();
    digits.chunks(2).map(|d| (d[0] * 16 + d[1]) as u8).collect()
}

fn checked(s: &Sheet, file: &[u8]) -> [u64; 4] {
    let mut reply = [9; 4];
    assert_eq!(library::check(s, file, &mut reply), 1);
    reply
}

// What the writer answers for the slots that a search filled, and the output, of which every byte was 9.
fn written(s: &Sheet, slots: usize, room: usize) -> ([u64; 4], Vec<u8>) {
    let found = search(s, slots);
    assert_eq!(found.reply[0], UNSATISFIABLE);
    let (mut out, mut reply) = (vec![9; room], [9; 4]);
    assert_eq!(
        library::write(s, &found.points, &found.numbers, &found.depths, found.reply[1] as u32, &mut out, &mut reply),
        1
    );
    (reply, out)
}

fn worked_cases(count: &mut Count) {
    // A: points 00 10 01 11, clauses 1 2 3 4: 32 + 4 * 8 + 4 * 4 = 80 bytes, bodies at 32, 32 and 64.
    let a = hex("02000000 04000000 00000000 20000000 04000000 20000000 04000000 40000000 \
         0000000000000000 0100000000000000 0200000000000000 0300000000000000 01000000 02000000 03000000 04000000");
    // A with the permutation 2 1: points 00 10 11, clauses 1 2 4: 32 + 2 + 3 * 8 + 3 * 4 = 70 bytes, bodies at 32, 34
    // and 58.
    let swapped = hex("02000000 04000000 01000000 20000000 03000000 22000000 03000000 3a000000 \
         0201 0000000000000000 0100000000000000 0300000000000000 01000000 02000000 04000000");
    // One variable and one empty clause: the point 0 with clause 1: 32 + 8 + 4 = 44 bytes, bodies at 32, 32 and 40.
    let empty =
        hex("01000000 01000000 00000000 20000000 01000000 20000000 01000000 28000000 0000000000000000 01000000");
    let cases = [
        ("A", sheet(2, &formula_a(), &[]), a),
        ("A with the permutation 2 1", sheet(2, &formula_a(), &[vec![2, 1]]), swapped),
        ("one empty clause", sheet(1, &[(0, 0)], &[]), empty),
    ];
    for (name, s, wanted) in cases {
        let size = wanted.len();
        let (reply, out) = written(&s, 8, size + 3);
        count.compare(&format!("{name}: the certificate's length"), reply, [WRITTEN, size as u64, 0, 0]);
        count.compare(&format!("{name}: the certificate"), out, [wanted.clone(), vec![9; 3]].concat());
        count.compare(&format!("{name}: checked"), checked(&s, &wanted), [ACCEPTED, 0, 0, 0]);
    }
}

// Document 002's points and clause numbers as a file, 32 + 14 * 8 + 14 * 4 = 200 bytes with bodies at 32, 32 and 144,
// and its formula.
fn from_paper() -> (Sheet, File) {
    let (clauses, listed) = paper();
    let (points, numbers): (Vec<u64>, Vec<u32>) = listed.into_iter().unzip();
    (sheet(6, &clauses, &[]), File::new(6, 7, &[], &points, &numbers))
}

fn foreign(count: &mut Count) {
    let (s, file) = from_paper();
    let bytes = file.bytes();
    count.compare("the paper's set: its length", bytes.len(), 200);
    count.compare("the paper's set", checked(&s, &bytes), [ACCEPTED, 0, 0, 0]);
    let mut wishful = sheet(6, &paper().0, &[vec![1, 1, 1, 1, 1, 1]]);
    wishful.target = 1 << 63;
    count.compare(
        "the formula's target and permutations are not looked at",
        checked(&wishful, &bytes),
        [ACCEPTED, 0, 0, 0],
    );
    let (mut contents, mut reply) = ([9; 8], [9; 4]);
    let returned = library::open(&bytes, &mut contents, &mut reply);
    count.compare(
        "the paper's set: opened",
        (returned, reply, contents),
        (1, [OPENED, 0, 0, 0], [6, 7, 0, 32, 14, 32, 14, 144]),
    );
}

// Each number of the contents changed alone. Another n or m leaves lengths and offsets in order, since there is no
// permutation: 15. Every other number contradicts a count, an offset or the length of 200: 14.
fn damaged_contents(count: &mut Count) {
    let names = ["n", "m", "permutations", "their offset", "points", "their offset", "clause numbers", "their offset"];
    let other = [7, 8, 1, 33, 13, 33, 15, 143];
    for i in 0..8 {
        let (s, mut file) = from_paper();
        file.contents[i] = other[i];
        let wanted = if i < 2 { [REFUSED, 15, 0, 0] } else { [REFUSED, 14, 200, 0] };
        count.compare(&format!("contents, number {}: {}", i + 1, names[i]), checked(&s, &file.bytes()), wanted);
    }
}

// A length that fits only where sums wrap. Modulo 2^32: of 2^30 points and as many clause numbers, 8 * 2^30 and 4 *
// 2^30 are both 0, so that the bodies of a file of 32 bytes would all begin at 32. Modulo 2^64: 2^32 - 6 permutations
// of 2^32 - 6 bytes and 2^32 - 3 points and numbers of 12 bytes are 2^64 - 12 * 2^32 + 36 + 12 * 2^32 - 36, which is
// 0; the offsets modulo 2^32 are then 32 + 36 and 68 - 24.
fn wrapped_lengths(count: &mut Count) {
    let (s, _) = from_paper();
    let bare = |contents: [u32; 8]| File { contents, images: vec![], points: vec![], numbers: vec![] }.bytes();
    let (many, all) = (1 << 30, u32::MAX);
    count.compare("a length modulo 2^32", checked(&s, &bare([6, 7, 0, 32, many, 32, many, 32])), [REFUSED, 14, 32, 0]);
    count.compare(
        "a length modulo 2^64",
        checked(&s, &bare([all - 5, 7, all - 5, 32, all - 2, 68, all - 2, 44])),
        [REFUSED, 14, 32, 0],
    );
}

fn damaged_lengths(count: &mut Count) {
    let (s, file) = from_paper();
    let bytes = file.bytes();
    let longer = [bytes.clone(), vec![0]].concat();
    let cases = [
        ("one byte more", &longer[..], 201),
        ("one byte less", &bytes[..199], 199),
        ("an empty file", &[][..], 0),
        ("half the contents", &bytes[..16], 16),
    ];
    for (name, part, length) in cases {
        let (mut contents, mut reply) = ([9; 8], [9; 4]);
        let returned = library::open(part, &mut contents, &mut reply);
        count.compare(&format!("{name}: opened"), (returned, reply, contents), (1, [REFUSED, 14, length, 0], [9; 8]));
        count.compare(name, checked(&s, part), [REFUSED, 14, length, 0]);
    }
}

// A changed byte of the permutation 2 1 of A leaves no permutation: 11 with its number. The paper's formula does not
// keep (-2 3) when variables 1 and 2 are exchanged: 12 with the permutation's number.
fn damaged_permutations(count: &mut Count) {
    let s = sheet(2, &formula_a(), &[]);
    let with = |images: &[u8]| File::new(2, 4, images, &[0, 1, 3], &[1, 2, 4]).bytes();
    count.compare("A with 2 1, from elsewhere", checked(&s, &with(&[2, 1])), [ACCEPTED, 0, 0, 0]);
    for (i, byte) in [(0, 1), (0, 0), (0, 3), (1, 2), (1, 255)] {
        let mut images = [2, 1];
        images[i] = byte;
        count.compare(&format!("image {} is {byte}", i + 1), checked(&s, &with(&images)), [REFUSED, 11, 1, 0]);
    }
    count.compare("the second of two permutations", checked(&s, &with(&[2, 1, 2, 2])), [REFUSED, 11, 2, 0]);
    let (s, file) = from_paper();
    let exchanged = File::new(6, 7, &[2, 1, 3, 4, 5, 6], &file.points, &file.numbers).bytes();
    count.compare("a permutation that does not keep the clauses", checked(&s, &exchanged), [REFUSED, 12, 1, 0]);
}

fn damaged_entries(count: &mut Count) {
    let mut damaged = |name: &str, change: &dyn Fn(&mut File), code: u64, place: u64| {
        let (s, mut file) = from_paper();
        change(&mut file);
        count.compare(name, checked(&s, &file.bytes()), [REFUSED, code, place, 0]);
    };
    // The point that stands again is the later one; bit 6 would be variable 7.
    damaged("point 3 is point 1 again", &|f| f.points[2] = f.points[0], 16, 3);
    damaged("point 5 has a bit above n", &|f| f.points[4] |= 1 << 6, 16, 5);
    damaged("point 14 has the highest bit", &|f| f.points[13] |= 1 << 63, 16, 14);
    damaged("clause number 0", &|f| f.numbers[3] = 0, 17, 4);
    damaged("clause number m + 1", &|f| f.numbers[3] = 8, 17, 4);
    // Point 1 is 000000 and satisfies clause 2, which is (-2 3).
    damaged("a clause that its point satisfies", &|f| f.numbers[0] = 2, 17, 1);
    // Without point 14, 100000: point 1 falsifies (1 2), and its flip of variable 1 is not there.
    damaged("no point 14", &|f| *f = without(f, 13), 18, 1);
    // Without point 8, 011111: point 7, 111111, falsifies (-6 -1), and its flip of variable 1 is not there.
    damaged("no point 8", &|f| *f = without(f, 7), 18, 7);
    damaged("no point", &|f| *f = File::new(6, 7, &[], &[], &[]), 16, 0);
}

// The file without one of its points.
fn without(file: &File, index: usize) -> File {
    let (mut points, mut numbers) = (file.points.clone(), file.numbers.clone());
    points.remove(index);
    numbers.remove(index);
    File::new(file.contents[0], file.contents[1], &file.images, &points, &numbers)
}

// What the solver answers and leaves in fresh slots, and the output, of which every byte was 9.
fn solved(text: &[u8], slots: usize, room: usize) -> (Found, Vec<u8>) {
    let mut found = Found { reply: [9; 4], points: vec![9; slots], numbers: vec![9; slots], depths: vec![9; slots] };
    let mut out = vec![9; room];
    let returned =
        library::solve(text, &mut found.points, &mut found.numbers, &mut found.depths, &mut out, &mut found.reply);
    assert_eq!(returned, 1);
    (found, out)
}

// The formula that the reader makes of a text, with its clauses in slices of their length.
fn read(text: &[u8]) -> Sheet {
    let (mut positive, mut negative) = (vec![9; 4096], vec![9; 4096]);
    let (mut numbers, mut images, mut reply) = ([9; 4], vec![9; 1024], [9; 4]);
    assert_eq!(library::read(text, &mut positive, &mut negative, &mut numbers, &mut images, &mut reply), 1);
    assert_eq!(reply, [PARSED, 0, 0, 0]);
    positive.truncate(numbers[1] as usize);
    negative.truncate(numbers[1] as usize);
    let [variables, clauses, target, permutations] = numbers;
    Sheet {
        variables: variables as u32,
        clauses: clauses as u32,
        target,
        permutations: permutations as u32,
        images,
        positive,
        negative,
    }
}

// From a text to a checked certificate, in one call and step by step, and the same with one byte too few.
fn unsatisfiable(count: &mut Count, name: &str, text: &[u8], slots: u64, size: usize) -> Vec<u8> {
    let (solution, out) = solved(text, 4096, size + 3);
    count.compare(&format!("{name}: solved"), solution.reply, [CERTIFIED, slots, size as u64, 0]);
    let s = read(text);
    let found = search(&s, 4096);
    count.compare(&format!("{name}: searched"), found.reply, [UNSATISFIABLE, slots, 0, 0]);
    let same =
        (&solution.points, &solution.numbers, &solution.depths) == (&found.points, &found.numbers, &found.depths);
    count.expect(
        &format!("{name}: the same slots, those behind them unchanged"),
        same && found.points[slots as usize..].iter().all(|&x| x == 9),
    );
    let (reply, again) = written(&s, 4096, size + 3);
    count.compare(&format!("{name}: written"), reply, [WRITTEN, size as u64, 0, 0]);
    count.expect(
        &format!("{name}: the same output, the bytes behind it unchanged"),
        out == again && out[size..] == [9; 3],
    );
    count.compare(&format!("{name}: checked"), checked(&s, &out[..size]), [ACCEPTED, 0, 0, 0]);
    let (short, unwritten) = solved(text, 4096, size - 1);
    count.compare(
        &format!("{name}: an output one byte too short"),
        (short.reply, unwritten),
        ([UNCERTIFIED, slots, size as u64, 0], vec![9; size - 1]),
    );
    out[..size].to_vec()
}

fn end_to_end(count: &mut Count) {
    let file = unsatisfiable(count, "the paper's formula", &text(6, &paper().0, &[]), 14, 200);
    // The search by hand, oldest point first: 000000 falsifies (1 2) and leads to 100000 and 010000, these to 100010
    // and 011000, and so on.
    let points = [0, 1, 2, 17, 6, 49, 14, 48, 15, 50, 31, 54, 63, 62];
    let numbers = [1, 5, 2, 6, 3, 7, 4, 1, 5, 2, 6, 3, 7, 4];
    count.compare("the paper's formula: the certificate", file, File::new(6, 7, &[], &points, &numbers).bytes());
    // Slots as the search of tests/cases.rs has them; a certificate has 32 + n bytes for each permutation + 12 bytes
    // for each slot.
    let plain = [(4, 80), (23, 308), (196, 2384)];
    let listed = [(3, 70), (9, 158), (54, 740)];
    for m in 1..=3 {
        let n = (m * (m + 1)) as u32;
        let name = format!("PH({}, {m})", m + 1);
        let (slots, size) = plain[m - 1];
        unsatisfiable(count, &name, &text(n, &pigeons(m), &[]), slots, size);
        let (slots, size) = listed[m - 1];
        unsatisfiable(count, &format!("{name} with its swaps"), &text(n, &pigeons(m), &swaps(m)), slots, size);
    }
}

// The checker at the sizes of its arrays. Every point falsifies the clause without literals, which has no flips, so that
// any points are a certificate unless the last repeats the first.
fn array_sizes(count: &mut Count) {
    let s = sheet(17, &[(0, 0)], &[]);
    for size in [64, 1024, 8192, 65536].into_iter().flat_map(|size| [size - 1, size, size + 1]) {
        let mut points: Vec<u64> = (0..size).collect();
        let numbers = vec![1; points.len()];
        let too_many = [REFUSED, 16, 0, 0];
        let file = File::new(17, 1, &[], &points, &numbers).bytes();
        let wanted = if size > 65536 { too_many } else { [ACCEPTED, 0, 0, 0] };
        count.compare(&format!("{size} points"), checked(&s, &file), wanted);
        points[size as usize - 1] = 0;
        let file = File::new(17, 1, &[], &points, &numbers).bytes();
        let wanted = if size > 65536 { too_many } else { [REFUSED, 16, size, 0] };
        count.compare(&format!("{size} points, the last the first"), checked(&s, &file), wanted);
    }
}

// The solver at the sizes of its arrays for clauses, and at the length up to which it begins with the smallest: all
// clauses are the first variable, which one change meets, or have no literal. A remark makes a text as long as it is to
// be.
fn solver_sizes(count: &mut Count) {
    let kinds = [("1 0\n", [SATISFIABLE, 1, 1, 2]), ("0\n", [CERTIFIED, 1, 44, 0])];
    for clauses in [32, 256, 1024, 4096].into_iter().flat_map(|size| [size - 1, size, size + 1]) {
        for (clause, answer) in kinds {
            let wanted = if clauses > 4096 { [REFUSED, 3, 0, 0] } else { answer };
            let text = format!("p cnf 1 {clauses}\n{}c", clause.repeat(clauses));
            for length in [text.len(), 255, 256, 257] {
                let longer = format!("{text:x<length$}");
                let (found, _) = solved(longer.as_bytes(), 8, 100);
                count.compare(&format!("{clauses} times {clause:?}, {length} bytes"), found.reply, wanted);
            }
        }
    }
}

// Every other answer of the solver leaves the output as it was, and a refusal the slots too.
fn other_answers(count: &mut Count) {
    let a = text(2, &formula_a(), &[]);
    let b = b"p cnf 3 2\nc wish 000\n1 2 0\n-1 3 0\n";
    let cases = [
        ("A with 3 slots", &a[..], 3, [UNKNOWN, 2, 3, 0]),
        ("A with no slot", &a, 0, [REFUSED, 13, 0, 0]),
        ("B", b, 8, [SATISFIABLE, 2, 1, 3]),
        ("B with 3 slots", b, 3, [SATISFIABLE, 2, 1, 3]),
        ("B with 2 slots", b, 2, [UNKNOWN, 1, 2, 0]),
        ("a variable above n", b"p cnf 2 1\n-3 0\n", 8, [REFUSED, 6, 10, 0]),
        ("a permutation that does not keep the clauses", b"p cnf 2 1\nc exch 2 1\n1 0\n", 8, [REFUSED, 12, 1, 0]),
    ];
    for (name, text, slots, wanted) in cases {
        let (found, out) = solved(text, slots, 100);
        count.compare(&format!("{name}: solved"), (found.reply, out), (wanted, vec![9; 100]));
        let unchanged =
            found.points.iter().all(|&x| x == 9) && found.numbers.iter().chain(&found.depths).all(|&x| x == 9);
        count.compare(&format!("{name}: slots unchanged"), unchanged, wanted[0] == REFUSED);
    }
}

// Where the words have no place, 0 is returned and nothing changes.
fn no_place(count: &mut Count) {
    let (s, file) = from_paper();
    let bytes = file.bytes();
    let (mut few, mut one, mut reply) = ([9; 3], [9; 1], [9; 4]);
    let (mut contents, mut seven) = ([9; 8], [9; 7]);
    let returned = [
        library::check(&s, &bytes, &mut few),
        library::open(&bytes, &mut contents, &mut few),
        library::open(&bytes, &mut seven, &mut reply),
        library::image_at(&[2, 1], 2, 0, 0, &mut one),
        library::point_at(&bytes[32..144], 0, &mut one),
        library::number_at(&bytes[144..], 0, &mut one),
    ];
    count.compare("no place for the words", returned, [0; 6]);
    count.compare("nothing changed", (few, one, reply, contents, seven), ([9; 3], [9; 1], [9; 4], [9; 8], [9; 7]));
    let (mut points, mut numbers, mut depths, mut out) = ([9; 4], [9; 4], [9; 4], [9; 80]);
    let returned =
        library::solve(&text(2, &formula_a(), &[]), &mut points, &mut numbers, &mut depths, &mut out, &mut few);
    count.compare(
        "no place for the solver's words",
        (returned, points, numbers, depths, few),
        (0, [9; 4], [9; 4], [9; 4], [9; 3]),
    );
    count.expect("the output unchanged", out == [9; 80]);
}

fn main() {
    let mut count = Count::new();
    worked_cases(&mut count);
    foreign(&mut count);
    damaged_contents(&mut count);
    wrapped_lengths(&mut count);
    damaged_lengths(&mut count);
    damaged_permutations(&mut count);
    damaged_entries(&mut count);
    array_sizes(&mut count);
    solver_sizes(&mut count);
    end_to_end(&mut count);
    other_answers(&mut count);
    no_place(&mut count);
    count.finish("certificates");
}
