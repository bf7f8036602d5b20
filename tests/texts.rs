// Texts for the reader: document 01's executed cases (G.d), each refusal number, each rule of precedence, request
// 2026-01, and hostile texts of 1 MiB. Prints a line a text and a count; exit status 1 if one is not answered as
// expected.
mod library;
use library::Count;

const MIB: usize = 1 << 20;

// What the reader says: a refusal's number and place, or the formula's numbers.
#[derive(PartialEq, Debug)]
enum Said {
    Refused(u64, u64),
    Read { variables: u64, clauses: u64, target: u64, permutations: u64 },
}

// Reads with clause slices of a length, and sees to it that a refusal leaves them and what takes the formula alone.
fn said(text: &[u8], lent: usize) -> Said {
    let (mut positive, mut negative) = (vec![9; lent], vec![9; lent]);
    let (mut numbers, mut images, mut reply) = ([9; 4], [9; 1024], [9; 4]);
    assert_eq!(library::read(text, &mut positive, &mut negative, &mut numbers, &mut images, &mut reply), 1);
    if reply[0] == 4 {
        return Said::Read { variables: numbers[0], clauses: numbers[1], target: numbers[2], permutations: numbers[3] };
    }
    assert!(positive.iter().chain(&negative).all(|&x| x == 9), "a refusal changed a clause slice");
    assert!(numbers == [9; 4] && images == [9; 1024], "a refusal changed what takes the formula");
    Said::Refused(reply[1], reply[2])
}

fn read(variables: u64, clauses: u64, target: u64, permutations: u64) -> Said {
    Said::Read { variables, clauses, target, permutations }
}

// The texts that came out as expected.
struct Texts(Count);

impl Texts {
    fn expect(&mut self, name: &str, text: &[u8], lent: usize, wanted: Said) {
        self.0.compare(name, said(text, lent), wanted);
    }
}

// V 64 and 65, C 4,096 and 4,097, 16 and 17 permutations.
fn limits(count: &mut Texts) {
    count.expect("V 64", b"p cnf 64 0\n", 0, read(64, 0, 0, 0));
    count.expect("V 65", b"p cnf 65 0\n", 0, Said::Refused(3, 0));
    let clauses = [b"p cnf 1 4096\n".to_vec(), b"0 ".repeat(4096)].concat();
    count.expect("C 4,096", &clauses, 4096, read(1, 4096, 0, 0));
    count.expect("C 4,097", b"p cnf 1 4097\n", 5000, Said::Refused(3, 0));
    let permutations = |k: usize| [b"p cnf 2 0\n".to_vec(), b"c exch 2 1\n".repeat(k)].concat();
    count.expect("16 permutations", &permutations(16), 0, read(2, 0, 0, 16));
    count.expect("17 permutations", &permutations(17), 0, Said::Refused(9, 10 + 16 * 11));
}

fn refusals(count: &mut Texts) {
    count.expect("1: a text too long", &vec![10; MIB + 1], 0, Said::Refused(1, MIB as u64));
    count.expect("2: no text", b"", 0, Said::Refused(2, 0));
    count.expect("2: no problem line", b"c x\n \t\r\n", 0, Said::Refused(2, 8));
    count.expect("2: no number of clauses", b"c\np cnf 3\n", 0, Said::Refused(2, 2));
    count.expect("2: a blank first", b" p cnf 1 0\n", 0, Said::Refused(2, 0));
    count.expect("3: no variable", b"\np cnf 0 0\n", 0, Said::Refused(3, 1));
    count.expect("4: clause slices too short", b"p cnf 1 2\n0 0\n", 1, Said::Refused(4, 0));
    count.expect("5: no number", b"p cnf 2 1\n1 x 0\n", 1, Said::Refused(5, 12));
    count.expect("5: minus before 0", b"p cnf 2 1\n1 -0\n", 1, Said::Refused(5, 12));
    count.expect("5: five digits", b"p cnf 2 1\n00001 0\n", 1, Said::Refused(5, 10));
    count.expect("5: a second problem line", b"p cnf 2 1\np cnf 2 1\n", 1, Said::Refused(5, 10));
    count.expect("6: a variable above n", b"p cnf 2 1\n-3 0\n", 1, Said::Refused(6, 10));
    count.expect("7: a word too many", b"p cnf 2 1\n1 0 2\n", 1, Said::Refused(7, 14));
    count.expect("7: too few clauses", b"p cnf 2 2\n1 0\n", 2, Said::Refused(7, 14));
    count.expect("8: a target too short", b"p cnf 2 0\nc wish 0\n", 0, Said::Refused(8, 10));
    count.expect("8: a second target", b"p cnf 2 0\nc wish 01\nc wish 01\n", 0, Said::Refused(8, 20));
    count.expect("9: no permutation", b"p cnf 2 0\nc exch 1 1\n", 0, Said::Refused(9, 10));
}

fn precedence(count: &mut Texts) {
    count.expect("1 before 2", &vec![b'x'; MIB + 1], 0, Said::Refused(1, MIB as u64));
    count.expect("2 before 3", b"p cnf 65 0 x\n", 0, Said::Refused(2, 0));
    count.expect("3 before 4", b"p cnf 65 9\n", 0, Said::Refused(3, 0));
    count.expect("4 before the rest", b"p cnf 1 1\nx\n", 0, Said::Refused(4, 0));
    count.expect("7 before 5 at a word", b"p cnf 1 1\n0 x\n", 1, Said::Refused(7, 12));
    count.expect("7 before 6 at a word", b"p cnf 1 1\n0 9\n", 1, Said::Refused(7, 12));
    count.expect("first in the text: 6, then 8", b"p cnf 1 1\n9 0\nc wish 7\n", 1, Said::Refused(6, 10));
    count.expect("first in the text: 8, then 6", b"p cnf 1 1\nc wish 7\n9 0\n", 1, Said::Refused(8, 10));
    count.expect("first in the text: 9, then 7", b"p cnf 1 1\nc exch 2\n", 1, Said::Refused(9, 10));
    count.expect("a target before the problem line has no meaning", b"c wish 1\np cnf 1 0\n", 0, read(1, 0, 0, 0));
    count.expect("a target inside a clause has", b"p cnf 2 1\n1\nc wish 01\n2 0\n", 1, read(2, 1, 2, 0));
}

// Request 2026-01: benchmark sheets end in a percent sign.
fn percent(count: &mut Texts) {
    count.expect("SATLIB's ending", b"p cnf 3 2\n 1 -2 0\n2 3 0\n%\n0\n\n", 2, read(3, 2, 0, 0));
    count.expect("no byte behind the sign", b"p cnf 1 0\n%", 0, read(1, 0, 0, 0));
    count.expect("blanks behind the sign", b"p cnf 1 0\n%\t \r\n", 0, read(1, 0, 0, 0));
    count.expect("malformed lines behind", b"p cnf 2 0\n%\nc wish 9\nc exch 1 1\nx\n", 0, read(2, 0, 0, 0));
    let others = b"p cnf 1 0\n%\nc wish 1\nc exch 1\n%\n";
    count.expect("well-formed lines behind are not taken", others, 0, read(1, 0, 0, 0));
    count.expect("right behind the problem line: 7", b"p cnf 1 1\n%\n1 0\n", 1, Said::Refused(7, 10));
    count.expect("too few closed: 7 at the sign", b"p cnf 2 2\n1 0\n%\n0\n", 2, Said::Refused(7, 14));
    count.expect("inside a clause: 7 at the sign", b"p cnf 2 1\n1 2\n%\n0\n", 1, Said::Refused(7, 14));
    count.expect("before the problem line: 2", b"c x\n%\np cnf 1 0\n", 0, Said::Refused(2, 4));
    count.expect("the first line: 2", b"%\np cnf 1 0\n", 0, Said::Refused(2, 0));
    count.expect("%%: 5", b"p cnf 1 1\n%%\n1 0\n", 1, Said::Refused(5, 10));
    count.expect("%x: 5", b"p cnf 1 1\n%x\n1 0\n", 1, Said::Refused(5, 10));
    count.expect("%x once C clauses are closed: 7", b"p cnf 1 0\n%x\n", 0, Said::Refused(7, 10));
    count.expect("a blank before the sign: 5", b"p cnf 1 1\n %\n1 0\n", 1, Said::Refused(5, 11));
    count.expect("the same once C clauses are closed: 7", b"p cnf 1 0\n %\n", 0, Said::Refused(7, 11));
    count.expect("a sign inside a line: 5", b"p cnf 1 1\n1 % 0\n", 1, Said::Refused(5, 12));
    count.expect("a fault before the sign goes first", b"p cnf 1 1\nc wish 7\n%\n", 1, Said::Refused(8, 10));
    let ending = [b"p cnf 1 0\n%\n".to_vec(), vec![b'x'; MIB - 12]].concat();
    count.expect("1 MiB of bytes behind the sign", &ending, 0, read(1, 0, 0, 0));
    let long = [ending, b"x".to_vec()].concat();
    count.expect("one byte more: 1 counts them", &long, 0, Said::Refused(1, MIB as u64));
    let blanks = [b"p cnf 1 0\n%".to_vec(), vec![b' '; MIB - 12], b"x".to_vec()].concat();
    count.expect("a word 1 MiB behind the sign: 7", &blanks, 0, Said::Refused(7, 10));
}

fn hostile(count: &mut Texts) {
    let long = |head: &[u8], part: &[u8]| [head.to_vec(), part.repeat((MIB - head.len()) / part.len())].concat();
    let end = |text: &[u8]| text.len() as u64;
    let newlines = long(b"", b"\n");
    count.expect("1 MiB of newlines", &newlines, 0, Said::Refused(2, end(&newlines)));
    let comments = long(b"p cnf 1 0\n", b"c\n");
    count.expect("1 MiB of comments", &comments, 0, read(1, 0, 0, 0));
    let word = long(b"p cnf 1 1\n", b"1");
    count.expect("1 MiB of one word", &word, 1, Said::Refused(5, 10));
    let line = long(b"p cnf 1 1\n", b" 1");
    count.expect("1 MiB of one line", &line, 1, Said::Refused(7, end(&line)));
    let comment = long(b"p cnf 1 0\nc wish 1", b" ");
    count.expect("1 MiB of one target line", &comment, 1, read(1, 0, 1, 0));
}

fn main() {
    let mut count = Texts(Count::new());
    limits(&mut count);
    refusals(&mut count);
    precedence(&mut count);
    percent(&mut count);
    hostile(&mut count);
    count.0.finish("texts");
}
