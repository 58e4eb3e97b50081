//! Job files damaged at random.
use oracle::generate::Rng;

/// Words that stand for a number, a count, a name or nothing.
const WORDS: [&str; 42] = [
    "0",
    "-0",
    "1",
    "2",
    "3",
    "-1",
    "4096",
    "4097",
    "10000",
    "10000.000001",
    "1e308",
    "1e309",
    "-1e308",
    "5e-324",
    "1e-400",
    "0.1",
    "1e99999999999",
    "nan",
    "-nan",
    "NaN",
    "inf",
    "-inf",
    "infinity",
    "7ff0000000000000",
    "fff8000000000001",
    "8000000000000000",
    "0000000000000001",
    "7FF0000000000000",
    "4294967295",
    "4294967296",
    "9223372036854775807",
    "18446744073709551615",
    "18446744073709551616",
    "99999999999999999999999999999999999999",
    "0x10",
    "1_000",
    "+5",
    ".5",
    "5.",
    "none",
    "#",
    "é\u{301}\u{1f600}",
];

const LINES: [&str; 12] = [
    "verts 99999999999",
    "verts 0",
    "stock 4294967296",
    "stock 0",
    "stock 2\nregion 3\nregion",
    "region 3",
    "pocket",
    "pocket 4294967295 4294967295",
    "lent_rows 18446744073709551615",
    "lent_bytes 0",
    "resolution 0.012",
    "diameter 0.1\ndiameter 0.1",
];

fn below(r: &mut Rng, n: usize) -> usize {
    r.below(n.max(1) as u64) as usize
}

/// A change of the lines.
fn change_lines(r: &mut Rng, text: &[u8]) -> Vec<u8> {
    let mut lines: Vec<Vec<u8>> = text.split(|b| *b == b'\n').map(<[u8]>::to_vec).collect();
    let (k, other) = (below(r, lines.len()), below(r, lines.len()));
    match r.below(7) {
        0 => drop(lines.remove(k)),
        1 => lines.insert(other, lines[k].clone()),
        2 => lines.swap(k, other),
        3 => lines.insert(k, r.pick(&LINES).into()),
        4 => lines[k] = [&lines[k][..], b" ", &r.pick(&WORDS).as_bytes().repeat(1 + below(r, 3))].concat(),
        5 => lines[k] = r.pick(&WORDS).as_bytes().repeat(1 + below(r, 20_000)),
        _ => lines.truncate(k),
    }
    let end: &[u8] = if r.chance(0.1) { b"\r\n" } else { b"\n" };
    lines.join(end)
}

/// A word replaced.
fn change_word(r: &mut Rng, text: &[u8]) -> Vec<u8> {
    let mut words: Vec<&[u8]> = text.split_inclusive(u8::is_ascii_whitespace).collect();
    let k = below(r, words.len());
    let Some(old) = words.get(k) else { return text.to_vec() };
    let space = if old.ends_with(b"\n") { "\n" } else { " " };
    let new = format!("{}{space}", r.pick(&WORDS)).into_bytes();
    words[k] = &new;
    words.concat()
}

/// A change of the bytes.
fn change_bytes(r: &mut Rng, text: &[u8]) -> Vec<u8> {
    let mut bytes = text.to_vec();
    let k = below(r, bytes.len());
    let Some(byte) = bytes.get_mut(k) else { return vec![r.bits() as u8] };
    match r.below(6) {
        0 => *byte ^= 1 << r.below(8),
        1 => *byte = r.bits() as u8,
        2 => bytes.insert(k, r.pick(&[0, b' ', b'\t', b'\r', b'\n', b'#', b'-', 0x80, 0xff])),
        3 => bytes.truncate(k),
        4 => drop(bytes.drain(k..(k + below(r, 40)).min(text.len()))),
        _ => {
            let noise: Vec<u8> = (0..below(r, 60)).map(|_| r.bits() as u8).collect();
            drop(bytes.splice(k..k, noise));
        }
    }
    bytes
}

/// A sample with up to three changes, joined with another one now and then; or noise alone.
pub fn damaged(r: &mut Rng, samples: &[String]) -> Vec<u8> {
    if r.chance(0.02) {
        return (0..below(r, 3_000)).map(|_| r.bits() as u8).collect();
    }
    let mut bytes = r.pick(samples).into_bytes();
    if r.chance(0.02) {
        bytes.extend(r.pick(samples).as_bytes());
    }
    if r.chance(0.03) {
        bytes.splice(0..0, "\u{feff}".bytes());
    }
    for _ in 0..r.below(4) {
        bytes = match r.below(8) {
            0..=3 => change_word(r, &bytes),
            4..=5 => change_lines(r, &bytes),
            _ => change_bytes(r, &bytes),
        };
    }
    bytes
}
