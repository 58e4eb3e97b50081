//! Writes Rust's own answers, one call a line, for the program `vectors` to replay where there is no Rust:
//! `name argument .. answer`, each number in hexadecimal digits, a float its bits, any NaN the same one.
use compare::bits::Bits;
use compare::{inputs, numbers};

/// Which calls of those that the tests make are stored: special patterns close together, random ones far
/// apart, a few hundred of each function.
fn stored(call: usize) -> bool {
    match call {
        0..250 => call % 2 == call / 2 % 2,
        250..60_000 => call.is_multiple_of(997),
        _ => call.is_multiple_of(80_021),
    }
}

fn hex<T: Bits>(value: T) -> String {
    let digits = 2 * size_of::<T>();
    format!("{:0digits$x}", value.bits())
}

macro_rules! write_each {
    ($($name:ident($($arg:ident: $type:ty),*) -> $result:ty, $inputs:ident, $rust:expr;)*) => {$(
        {
            let name = stringify!($name).trim_start_matches("numbers_");
            let mut call = 0;
            inputs::$inputs(|$($arg: $type),*| {
                if stored(call) {
                    let answer: $result = $rust;
                    let words = [$(hex($arg)),*, hex(answer)];
                    println!("{name} {}", words.join(" "));
                }
                call += 1;
            });
        }
    )*};
}

/// Lines that the program has to name: a wrong answer, then no answer, an unknown name, no digit, a digit
/// too many, a blank too many, nothing, and more than a line holds.
fn write_unfit() {
    println!("floor 3ff8000000000000 4000000000000000");
    println!("floor 3ff8000000000000");
    println!("flour 3ff8000000000000 3ff0000000000000");
    println!("floor 3ff800000000000g 3ff0000000000000");
    println!("floor 3ff80000000000000 3ff0000000000000");
    println!("floor  3ff8000000000000 3ff0000000000000");
    println!();
    println!("floor {:0200x} 3ff0000000000000", 1.5f64.to_bits());
}

fn main() {
    numbers!(write_each);
    write_unfit();
}
