// Reads a sheet and writes it back, with another wish if there is one: `cargo run --example rewrite FILE [WISH]`. WISH
// has a digit 0 or 1 for each name, that of name 1 first.
use std::io::Write;

fn main() {
    let mut words = std::env::args().skip(1);
    let path = words.next().expect("usage: rewrite FILE [WISH]");
    let text = std::fs::read(&path).expect("the sheet");
    match rewritten(&text, words.next().as_deref()) {
        Ok(text) => std::io::stdout().write_all(&text).expect("standard output"),
        Err(refusal) => {
            eprintln!("{refusal}; docs/REFUSALS.md says what to do");
            std::process::exit(1);
        }
    }
}

fn rewritten(text: &[u8], wish: Option<&str>) -> Result<Vec<u8>, jugbowo::Refusal> {
    let mut f = jugbowo::read(text)?;
    if let Some(digits) = wish {
        f.target = point(digits, f.variables);
    }
    jugbowo::write_sheet(&f)
}

fn point(digits: &str, variables: u32) -> u64 {
    let sound = digits.len() == variables as usize && digits.bytes().all(|digit| matches!(digit, b'0' | b'1'));
    assert!(sound, "the wish has {variables} digits, each 0 or 1: correct '{digits}'");
    digits.bytes().rev().fold(0, |x, digit| x << 1 | u64::from(digit - b'0'))
}
