// Sheets written as texts (request 2026-02): worked texts byte for byte, each refusal, the order of the refusals, texts
// that are too long to be read, permutations that do not keep the clauses, sizes at their limits, lent slices that are
// empty, short or longer than needed, and every text read back. Prints a line a case and a count; exit status 1 if one
// is not as expected.
mod library;
mod sheets;
use library::{Count, Sheet, PARSED, REFUSED, SHEET_ROOM, WRITTEN};
use sheets::{clause, every, formula_a, sheet};

const MIB: usize = 1 << 20;

// The words of a reply, and the output, of which every byte was 9. The sheet must stay as it is.
fn written(s: &Sheet, room: usize) -> ([u64; 4], Vec<u8>) {
    let (mut out, mut reply, before) = (vec![9; room], [9; 4], s.clone());
    assert_eq!(library::write_sheet(s, &mut out, &mut reply), 1);
    assert_eq!(*s, before, "the sheet lent is as it was");
    (reply, out)
}

// The text of a sheet, written with the room that always suffices.
fn text_of(s: &Sheet) -> Vec<u8> {
    let (reply, mut out) = written(s, SHEET_ROOM);
    assert_eq!((reply[0], reply[2..].to_vec()), (WRITTEN, vec![0, 0]));
    assert!(out[reply[1] as usize..].iter().all(|&byte| byte == 9), "bytes behind the text are as they were");
    out.truncate(reply[1] as usize);
    out
}

// What reading a text gives, with places to spare in the clause slices: the first words of the reply, and the sheet.
fn read(text: &[u8]) -> ([u64; 3], Sheet) {
    let (mut positive, mut negative) = (vec![9; 4097], vec![9; 4097]);
    let (mut numbers, mut images, mut reply) = ([0; 4], vec![9; 1024], [9; 4]);
    assert_eq!(library::read(text, &mut positive, &mut negative, &mut numbers, &mut images, &mut reply), 1);
    let [variables, clauses, permutations] = [numbers[0], numbers[1], numbers[3]].map(|x| x as u32);
    positive.truncate(clauses as usize);
    negative.truncate(clauses as usize);
    let s = Sheet { variables, clauses, target: numbers[2], permutations, images, positive, negative };
    ([reply[0], reply[1], reply[2]], s)
}

// A sheet whose text is known: with more room than it takes, with as much, with one byte less, with none; read back.
fn expect(count: &mut Count, name: &str, s: &Sheet, wanted: &str) {
    let (size, text) = (wanted.len(), wanted.as_bytes().to_vec());
    count.compare(name, String::from_utf8(text_of(s)), Ok(wanted.to_string()));
    for more in [0, 3] {
        let with = [&text[..], &vec![9; more]].concat();
        count.compare(
            &format!("{name}, {more} bytes more"),
            written(s, size + more),
            ([WRITTEN, size as u64, 0, 0], with),
        );
    }
    for room in [size - 1, 0] {
        count.compare(
            &format!("{name}, {room} bytes lent: 19"),
            written(s, room),
            ([REFUSED, 19, size as u64, 0], vec![9; room]),
        );
    }
    count.compare(&format!("{name}, read back"), read(&text), ([PARSED, 0, 0], s.clone()));
}

// A sheet of these clauses with a target.
fn aimed(target: u64, s: Sheet) -> Sheet {
    Sheet { target, ..s }
}

fn worked_cases(count: &mut Count) {
    let rules = "1 2 0\n-1 2 0\n1 -2 0\n-1 -2 0\n";
    expect(count, "A", &sheet(2, &formula_a(), &[]), &format!("p cnf 2 4\nc wish 00\n{rules}"));
    let swapped = sheet(2, &formula_a(), &[vec![2, 1]]);
    expect(count, "A with exchange 2 1", &swapped, &format!("p cnf 2 4\nc wish 00\nc exch 2 1\n{rules}"));
    let b = sheet(3, &[clause(&[1, 2]), clause(&[-1, 3])], &[]);
    expect(count, "B", &b, "p cnf 3 2\nc wish 000\n1 2 0\n-1 3 0\n");
    expect(count, "B, another wish", &aimed(0b101, b), "p cnf 3 2\nc wish 101\n1 2 0\n-1 3 0\n");
    expect(count, "a wish read from name 1 on", &aimed(0b001, sheet(3, &[], &[])), "p cnf 3 0\nc wish 100\n");
    expect(count, "no rule", &sheet(1, &[], &[]), "p cnf 1 0\nc wish 0\n");
    expect(count, "one empty rule", &sheet(1, &[(0, 0)], &[]), "p cnf 1 1\nc wish 0\n0\n");
    expect(count, "rule (1 -1)", &sheet(1, &[(1, 1)], &[]), "p cnf 1 1\nc wish 0\n1 -1 0\n");
    let both = sheet(12, &[clause(&[12, -11, 11, -9, 10, -12, 1])], &[]);
    let line = "1 -9 10 11 -11 12 -12 0";
    expect(count, "names ascending, yes before no", &both, &format!("p cnf 12 1\nc wish 000000000000\n{line}\n"));
    let two = sheet(11, &[], &[(1..=11).rev().collect(), (1..=11).collect()]);
    let lines = "c exch 11 10 9 8 7 6 5 4 3 2 1\nc exch 1 2 3 4 5 6 7 8 9 10 11\n";
    expect(count, "exchanges in their order", &two, &format!("p cnf 11 0\nc wish 00000000000\n{lines}"));
    let last = aimed(1 << 63, sheet(64, &[(1 << 63, 1 << 63), (0, 1)], &[]));
    let wish = format!("{}1", "0".repeat(63));
    expect(count, "name 64", &last, &format!("p cnf 64 2\nc wish {wish}\n64 -64 0\n-1 0\n"));
}

// Numbers of clauses of one to four digits, and of variables of one and two.
fn numbers(count: &mut Count) {
    for clauses in [9, 10, 99, 100, 999, 1000, 4096] {
        let s = sheet(1, &vec![(0, 0); clauses], &[]);
        expect(
            count,
            &format!("{clauses} rules"),
            &s,
            &format!("p cnf 1 {clauses}\nc wish 0\n{}", "0\n".repeat(clauses)),
        );
    }
    for variables in [9, 10, 64] {
        let s = sheet(variables, &[(1 << (variables - 1), 0)], &[]);
        let wish = "0".repeat(variables as usize);
        let wanted = format!("p cnf {variables} 1\nc wish {wish}\n{variables} 0\n");
        expect(count, &format!("{variables} names"), &s, &wanted);
    }
}

// A sheet that is refused, with no output and with the room that always suffices, of which nothing changes.
fn refused(count: &mut Count, name: &str, s: &Sheet, number: u64, place: u64) {
    for room in [0, SHEET_ROOM] {
        count.expect(
            &format!("{name}, {room} bytes lent"),
            written(s, room) == ([REFUSED, number, place, 0], vec![9; room]),
        );
    }
}

fn ten(count: &mut Count) {
    let s = || sheet(2, &formula_a(), &[vec![2, 1]]);
    refused(count, "10: no name", &Sheet { variables: 0, ..s() }, 10, 0);
    refused(count, "10: 65 names", &Sheet { variables: 65, ..s() }, 10, 0);
    refused(count, "10: 2^32 - 1 names", &Sheet { variables: u32::MAX, ..s() }, 10, 0);
    refused(count, "10: a rule fewer", &Sheet { clauses: 3, ..s() }, 10, 0);
    refused(count, "10: a rule more", &Sheet { clauses: 5, ..s() }, 10, 0);
    refused(count, "10: 4,097 rules", &sheet(2, &vec![(1, 2); 4097], &[]), 10, 0);
    refused(count, "10: a longer slice", &Sheet { positive: vec![0; 5], ..s() }, 10, 0);
    refused(count, "10: a shorter slice", &Sheet { negative: vec![0; 3], ..s() }, 10, 0);
    refused(count, "10: no slices", &Sheet { positive: vec![], negative: vec![], ..s() }, 10, 0);
    refused(count, "10: a wish above n", &aimed(4, s()), 10, 0);
    refused(count, "10: a rule above n, yes", &sheet(2, &[(1, 0), (4, 0)], &[]), 10, 0);
    refused(count, "10: a rule above n, no", &sheet(63, &[(1, 0), (0, 1 << 63)], &[]), 10, 0);
}

fn eleven(count: &mut Count) {
    let with = |listed: &[Vec<u8>]| sheet(3, &[], listed);
    let id = vec![1, 2, 3];
    refused(count, "11: a number twice", &with(&[id.clone(), vec![1, 1, 3]]), 11, 2);
    refused(count, "11: a number 0", &with(&[vec![0, 1, 2]]), 11, 1);
    refused(count, "11: a number above n", &with(&[vec![1, 2, 4]]), 11, 1);
    refused(count, "11: 17 exchanges", &with(&vec![id.clone(); 17]), 11, 17);
    refused(count, "11: 2^32 - 1 exchanges", &Sheet { permutations: u32::MAX, ..with(&[]) }, 11, 17);
    refused(count, "11: too many before a wrong one", &with(&vec![vec![9, 9, 9]; 17]), 11, 17);
    refused(count, "10 before 11", &aimed(8, with(&[vec![1, 1, 1]])), 10, 0);
    let short = Sheet { images: vec![1, 2, 3, 3, 1], ..with(&[id.clone(), vec![3, 1, 2]]) };
    refused(count, "11: an image that is not lent is 0", &short, 11, 2);
    refused(count, "11: no image lent", &Sheet { images: vec![], ..with(&[id]) }, 11, 1);
}

// Slices as they may be lent: just the images of the permutations, none where there is none, more than 1,024.
fn lent(count: &mut Count) {
    let whole = sheet(3, &[(1, 2)], &[vec![2, 3, 1]]);
    let wanted = text_of(&whole);
    count.compare("just as many images", text_of(&Sheet { images: vec![2, 3, 1], ..whole.clone() }), wanted.clone());
    let mut more = whole.clone();
    more.images.extend([7; 99]);
    count.compare("more than 1,024 images", text_of(&more), wanted.clone());
    more.images[3..].fill(7);
    count.compare("any bytes behind the images", text_of(&more), wanted.clone());
    count.compare("these are 0 when read back", read(&wanted).1, whole.clone());
    let none = Sheet { images: vec![], ..sheet(1, &[], &[]) };
    count.compare("no image, no clause", text_of(&none), b"p cnf 1 0\nc wish 0\n".to_vec());
    for words in 0..4 {
        let (mut out, mut reply) = (vec![9; 99], vec![9; words]);
        let returned = library::write_sheet(&whole, &mut out, &mut reply);
        count.compare(
            &format!("{words} words for the reply"),
            (returned, out, reply),
            (0, vec![9; 99], vec![9; words]),
        );
    }
    let (mut out, mut reply) = (vec![9; 99], [9; 6]);
    let returned = library::write_sheet(&whole, &mut out, &mut reply);
    count.compare("words behind the reply", (returned, reply), (1, [WRITTEN, wanted.len() as u64, 0, 0, 9, 9]));
}

// 12 is not tested: an exchange that does not keep the rules is written, read back, and refused where it is searched.
fn not_kept(count: &mut Count) {
    let s = sheet(2, &[clause(&[1])], &[vec![2, 1]]);
    expect(count, "an exchange that does not keep the rules", &s, "p cnf 2 1\nc wish 00\nc exch 2 1\n1 0\n");
    count.compare("the same, searched: 12", sheets::search(&s, 4).reply, [REFUSED, 12, 1, 0]);
}

// 4,096 rules of all 64 names both ways, all names wished and 16 exchanges: no text is longer.
fn largest() -> Sheet {
    aimed(u64::MAX, sheet(64, &vec![(u64::MAX, u64::MAX); 4096], &vec![(1..=64).rev().collect(); 16]))
}

// Texts about 1,048,576 bytes long: all are written, and those that are longer refused by 1 where they are read.
fn long(count: &mut Count) {
    let text = text_of(&largest());
    // 9 numbers of one digit and 55 of two: 119 digits
    let exchange = 7 + 119 + 63 + 1;
    let rule = (119 + 64) + (119 + 2 * 64) + 2;
    let size = 14 + 72 + 16 * exchange + 4096 * rule;
    count.compare("the largest text: its length", text.len(), size);
    count.expect("room for the largest text", size <= SHEET_ROOM);
    count.compare("the largest text, read: 1", read(&text).0, [REFUSED, 1, MIB as u64]);
    let (reply, out) = written(&largest(), size);
    count.expect("the largest text, just as many bytes", reply == [WRITTEN, size as u64, 0, 0] && out == text);
    for room in [size - 1, MIB] {
        let short = written(&largest(), room) == ([REFUSED, 19, size as u64, 0], vec![9; room]);
        count.expect(&format!("the largest text, {room} bytes lent: 19"), short);
    }
    for (name, extra, wanted) in [("1,048,576 bytes", 0, [PARSED, 0, 0]), ("one more", 1, [REFUSED, 1, MIB as u64])] {
        let s = about_a_mebibyte(extra);
        let text = text_of(&s);
        count.compare(&format!("{name}: the length"), text.len(), MIB + extra);
        let (words, again) = read(&text);
        count.compare(&format!("{name}: read"), words, wanted);
        if extra == 0 {
            count.expect(&format!("{name}: the same sheet"), again == s);
        }
    }
}

// A sheet whose text has a mebibyte and so many bytes: rules of 432 bytes, one with as many literals as are missing,
// and empty rules, of two bytes.
fn about_a_mebibyte(extra: usize) -> Sheet {
    let missing = MIB + extra - (14 + 72) - 2 * 4096;
    let (full, mut left) = (missing / 430, missing % 430);
    let mut part = [0, 0];
    for (no, name) in (0..128).rev().map(|k| (k % 2, k / 2)) {
        let takes = 2 + no + usize::from(name > 8);
        if left >= takes && left != takes + 1 {
            part[no] |= 1 << name;
            left -= takes;
        }
    }
    assert_eq!(left, 0, "literals of the length that is missing");
    let mut rules = [vec![(u64::MAX, u64::MAX); full], vec![(part[0], part[1])]].concat();
    rules.resize(4096, (0, 0));
    sheet(64, &rules, &[])
}

// Every rule that lists each of a few names once, read back, and written from a text that lists yes before no.
fn one_way(count: &mut Count) {
    for n in 1..=10 {
        let s = sheet(n, &every(n), &[]);
        let (words, again) = read(&text_of(&s));
        count.expect(&format!("every rule over {n} names, read back"), words == [PARSED, 0, 0] && again == s);
        let mut other = read(&sheets::text(n, &every(n), &[])).1;
        other.target = s.target;
        count.expect(&format!("every rule over {n} names, from another text"), text_of(&other) == text_of(&s));
    }
}

fn main() {
    let mut count = Count::new();
    worked_cases(&mut count);
    numbers(&mut count);
    ten(&mut count);
    eleven(&mut count);
    lent(&mut count);
    not_kept(&mut count);
    long(&mut count);
    one_way(&mut count);
    count.finish("writing");
}
