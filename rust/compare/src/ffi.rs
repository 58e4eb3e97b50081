//! The functions of the proved library under their C names, as safe functions.
use crate::numbers;

macro_rules! declare {
    ($($name:ident($($arg:ident: $type:ty),*) -> $result:ty, $inputs:ident, $rust:expr;)*) => {
        mod linked {
            unsafe extern "C" {
                $(pub fn $name($($arg: $type),*) -> $result;)*
            }
        }
        $(
            #[inline(always)]
            pub fn $name($($arg: $type),*) -> $result {
                // Proved for every value of its arguments; it is lent nothing.
                unsafe { linked::$name($($arg),*) }
            }
        )*
    };
}

numbers!(declare);
