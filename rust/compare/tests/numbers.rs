//! Bit equality of the layer `numbers` with Rust: a test for each line of `compare::numbers`.
use compare::bits::Bits;
use compare::{ffi, inputs, numbers};

macro_rules! same_bits {
    ($($name:ident($($arg:ident: $type:ty),*) -> $result:ty, $inputs:ident, $rust:expr;)*) => {$(
        #[test]
        fn $name() {
            let mut calls = 0u64;
            inputs::$inputs(|$($arg: $type),*| {
                let proved = ffi::$name($($arg),*);
                let rust: $result = $rust;
                if proved.bits() != rust.bits() {
                    let arguments = [$(format!("{:e} ({:016x})", $arg, $arg.to_bits())),*].join(", ");
                    panic!("{}({arguments}) is {proved}, not {rust}", stringify!($name));
                }
                calls += 1;
            });
            assert!(calls > 1_000_000, "{calls} calls");
        }
    )*};
}

numbers!(same_bits);
