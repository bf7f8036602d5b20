// What benchmarks make themselves.
#![allow(dead_code)] // a program uses some of them

// Random numbers (xorshift), the same on every machine.
pub fn random(mut x: u64) -> impl Iterator<Item = u64> {
    std::iter::from_fn(move || {
        x ^= x << 13;
        x ^= x >> 7;
        x ^= x << 17;
        Some(x)
    })
}

fn number(file: &mut Vec<u8>, x: usize) {
    file.extend((x as u32).to_le_bytes());
}

// A certificate: contents, permutations, points, and for each point the number of a clause.
pub fn certificate(
    variables: u32,
    clauses: u32,
    permutations: &[Vec<u8>],
    points: &[u64],
    falsified: impl Fn(u64) -> usize,
) -> Vec<u8> {
    let images: Vec<u8> = permutations.concat();
    let points_at = 32 + images.len();
    let mut file = Vec::new();
    number(&mut file, variables as usize);
    number(&mut file, clauses as usize);
    for (count, place) in
        [(permutations.len(), 32), (points.len(), points_at), (points.len(), points_at + 8 * points.len())]
    {
        number(&mut file, count);
        number(&mut file, place);
    }
    file.extend(images);
    file.extend(points.iter().flat_map(|x| x.to_le_bytes()));
    for &x in points {
        number(&mut file, falsified(x));
    }
    file
}
