//! The functions of this program by address, from its own file's table of symbols (ELF, 64 bits).
use std::ops::Range;

pub struct Symbols {
    /// Addresses as the file has them, and names.
    functions: Vec<(Range<usize>, String)>,
    /// What is added to them where the program runs.
    moved: usize,
}

fn number(bytes: &[u8], at: usize, len: usize) -> usize {
    bytes[at..at + len].iter().rev().fold(0, |n, &b| n << 8 | b as usize)
}

/// The functions of a file.
fn functions(file: &[u8]) -> Vec<(Range<usize>, String)> {
    const TABLE: usize = 2;
    const FUNCTION: u8 = 2;
    let (sections, size, count) = (number(file, 0x28, 8), number(file, 0x3a, 2), number(file, 0x3c, 2));
    let section = |k: usize| &file[sections + k * size..][..size];
    let content = |s: &[u8]| &file[number(s, 24, 8)..][..number(s, 32, 8)];
    let Some(table) = (0..count).map(section).find(|s| number(s, 4, 4) == TABLE) else { return Vec::new() };
    let names = content(section(number(table, 40, 4)));
    let name = |at: usize| {
        let bytes = names[at..].split(|b| *b == 0).next().unwrap_or(&[]);
        String::from_utf8_lossy(bytes).into_owned()
    };
    let function = |s: &[u8]| {
        let (start, len) = (number(s, 8, 8), number(s, 16, 8));
        (s[4] & 15 == FUNCTION).then(|| (start..start + len, name(number(s, 0, 4))))
    };
    content(table).chunks_exact(24).filter_map(function).collect()
}

impl Symbols {
    /// Of this program, in which the function of that name has that address.
    pub fn new(known: &str, address: usize) -> Option<Symbols> {
        let file = std::fs::read(std::env::current_exe().ok()?).ok()?;
        let functions = functions(&file);
        let start = functions.iter().find(|(_, name)| name == known)?.0.start;
        Some(Symbols { functions, moved: address.wrapping_sub(start) })
    }

    /// The name of the function at an address.
    pub fn name(&self, address: usize) -> &str {
        let at = address.wrapping_sub(self.moved);
        self.functions.iter().find(|(range, _)| range.contains(&at)).map_or("?", |(_, name)| name)
    }

    /// The addresses of a function.
    pub fn range(&self, name: &str) -> Option<Range<usize>> {
        let range = &self.functions.iter().find(|(_, n)| n == name)?.0;
        Some(range.start.wrapping_add(self.moved)..range.end.wrapping_add(self.moved))
    }
}
