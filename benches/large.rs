// Writes texts that are too large to be kept beside benches/sheets to a folder: large DIRECTORY. `long-4096-ball` has
// 4,096 clauses of 64 literals, the others fill the most that a text may have, 1 MiB.
mod files;
use std::path::Path;

const MOST: usize = 1 << 20;

// A piece as often as it fits between a start and an end.
fn filled(start: &str, piece: &str, end: &str) -> String {
    let count = (MOST - start.len() - end.len()) / piece.len();
    [start, &piece.repeat(count), end].concat()
}

// Each clause excludes one point: the target, those one flip from it, and so on until there are 4,096.
fn ball() -> String {
    let target = "0111100100100111001101100010111001000110110000110110011110110100";
    let mut flips: Vec<Vec<usize>> = vec![vec![]];
    for k in 0..4096 {
        let from = flips[k].last().map_or(0, |last| last + 1);
        // shorter lists stand before longer ones, so that each list is extended in its turn
        let longer: Vec<Vec<usize>> = (from..64).map(|i| [&flips[k][..], &[i]].concat()).collect();
        flips.extend(longer);
    }
    let literal = |i: usize, digit: u8, flipped: &[usize]| {
        let minus = if (digit == b'1') != flipped.contains(&i) { "-" } else { "" };
        format!("{minus}{} ", i + 1)
    };
    let clause = |flipped: &Vec<usize>| {
        let literals = target.bytes().enumerate().map(|(i, digit)| literal(i, digit, flipped));
        literals.chain(["0\n".to_string()]).collect::<String>()
    };
    format!("p cnf 64 4096\nc wish {target}\n") + &flips[..4096].iter().map(clause).collect::<String>()
}

// 4,096 clauses of random negative variables, so many each, with so many remarks behind each, and blanks to the end.
fn clauses(head: &str, literals: usize, remarks: usize) -> String {
    const WORDS: [&str; 8] =
        ["margin", "digits", "Latin", "quotation marks", "mirrored", "isolate", "translator", "kept"];
    let mut random = files::random(88172645463325252);
    let mut text = format!("p cnf 64 4096\n{head}");
    for _ in 0..4096 {
        (&mut random).take(literals).for_each(|x| text += &format!("-{} ", x % 64 + 1));
        text += "0\n";
        for _ in 0..remarks {
            text += "c";
            (&mut random).take(12).for_each(|x| text.extend([" ", WORDS[x as usize % WORDS.len()]]));
            text += "\n";
        }
    }
    let blanks = MOST - text.len();
    text + &" ".repeat(blanks)
}

fn main() {
    let folder = std::env::args().nth(1).expect("a folder");
    let identity: Vec<String> = (1..=64).map(|i| i.to_string()).collect();
    let sixteen = format!("c exch {}\n", identity.join(" ")).repeat(16);
    let texts = [
        ("remarks", filled("p cnf 3 1\n", "c a line that says nothing of names or rules\n", "1 2 0\n")),
        ("literals", filled("p cnf 64 1\n", "-64 63 ", "0\n")),
        ("remarks-4096", clauses(&sixteen, 3, 2)),
        ("literals-4096", clauses("", 65, 0)),
        ("long-4096-ball", ball()),
    ];
    for (name, text) in texts {
        std::fs::write(Path::new(&folder).join(name).with_extension("cnf"), text).expect("a folder to write to");
    }
}
