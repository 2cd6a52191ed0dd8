//! The calls over the C boundary, twice: the proved library, and the independent Rust behind functions of
//! the same form. A slice passes as its pointer and its length, and what is lent to a C function is rebuilt
//! from them. Both are thus called at the same price, and neither sees into its caller.

use crate::Calls;

/// The library that `host/build-library` makes.
pub struct Card;

/// The independent implementation, called as if it were such a library. Its waiting room is the plain ring: the
/// list is there to be believed, and not to be timed.
pub struct Plain;

/// Passes what is lent to a function in C's form.
macro_rules! passed {
    ($function:path, [$($passed:expr,)*]) => {
        $function($($passed),*)
    };
    ($function:path, [$($passed:expr,)*] $name:ident: &mut [$element:ty], $($rest:tt)*) => {
        passed!($function, [$($passed,)* $name.as_mut_ptr(), $name.len(),] $($rest)*)
    };
    ($function:path, [$($passed:expr,)*] $name:ident: &[$element:ty], $($rest:tt)*) => {
        passed!($function, [$($passed,)* $name.as_ptr(), $name.len(),] $($rest)*)
    };
    ($function:path, [$($passed:expr,)*] $name:ident: $number:ty, $($rest:tt)*) => {
        passed!($function, [$($passed,)* $name,] $($rest)*)
    };
}

/// Takes a call's parameters one by one into C's form, with what rebuilds each, and then makes of them
/// either the declaration of the library's function or a function that calls the independent Rust named.
/// Each `length` is another name, for each comes from a step of its own.
macro_rules! in_c {
    (library $exported:literal $call:ident, [$($parameter:tt)*] [$($rebuilt:expr,)*]) => {
        extern "C" {
            #[link_name = $exported]
            pub fn $call($($parameter)*) -> u8;
        }
    };
    ($independent:ident $exported:literal $call:ident, [$($parameter:tt)*] [$($rebuilt:expr,)*]) => {
        /// # Safety
        /// Each pointer is good for its length, and what is written overlaps with nothing else.
        #[inline(never)]
        #[allow(clippy::too_many_arguments)]
        pub unsafe extern "C" fn $call($($parameter)*) -> u8 {
            $independent.$call($($rebuilt),*)
        }
    };
    (
        $side:ident $exported:literal $call:ident, [$($parameter:tt)*] [$($rebuilt:expr,)*]
        $name:ident: &mut [$element:ty], $($rest:tt)*
    ) => {
        in_c!(
            $side $exported $call, [$($parameter)* $name: *mut $element, length: usize,]
            [$($rebuilt,)* from_raw_parts_mut($name, length),] $($rest)*
        );
    };
    (
        $side:ident $exported:literal $call:ident, [$($parameter:tt)*] [$($rebuilt:expr,)*]
        $name:ident: &[$element:ty], $($rest:tt)*
    ) => {
        in_c!(
            $side $exported $call, [$($parameter)* $name: *const $element, length: usize,]
            [$($rebuilt,)* from_raw_parts($name, length),] $($rest)*
        );
    };
    (
        $side:ident $exported:literal $call:ident, [$($parameter:tt)*] [$($rebuilt:expr,)*]
        $name:ident: $number:ty, $($rest:tt)*
    ) => {
        in_c!($side $exported $call, [$($parameter)* $name: $number,] [$($rebuilt,)* $name,] $($rest)*);
    };
}

macro_rules! calls {
    ($($independent:ident: $($exported:literal $call:ident($($lent:tt)*);)*)*) => {
        mod library {
            $($(in_c!(library $exported $call, [] [] $($lent)*);)*)*
        }

        mod independent {
            use crate::{flat::Document, ring::Ring, Calls};
            use std::slice::{from_raw_parts, from_raw_parts_mut};
            $($(in_c!($independent $exported $call, [] [] $($lent)*);)*)*
        }

        // Sound throughout: a lent slice is valid for its length, and the borrows keep what is written
        // apart from all else that is lent.
        impl Calls for Card {
            $($(fn $call(&self, $($lent)*) -> u8 {
                unsafe { passed!(library::$call, [] $($lent)*) }
            })*)*
        }

        impl Calls for Plain {
            $($(fn $call(&self, $($lent)*) -> u8 {
                unsafe { passed!(independent::$call, [] $($lent)*) }
            })*)*
        }
    };
}

// The calls of `pelgrant.h`, in its order, by the independent Rust that stands beside each.
calls! {
    Document:
    "pelgrant_send" send(
        sseq: &mut u8, step: u8, coding: u8, noise: u8, samples: &[u8], level: u8, from: u32, to: u32, address: u16,
        out: &mut [u8], answer: &mut [u64],
    );
    "pelgrant_signal_write" signal_write(
        bits: u8, na: u8, from: u32, to: u32, address: u16, out: &mut [u8], answer: &mut [u64],
    );
    "pelgrant_forward" forward(
        frame: &[u8], level: u8, from: u32, to: u32, address: u16, out: &mut [u8], answer: &mut [u64],
    );
    "pelgrant_forward_tray" forward_tray(
        tray: &[u8], level: u8, from: u32, to: u32, address: u16, out: &mut [u8], list: &mut [u8],
        answer: &mut [u64],
    );
    "pelgrant_read" read(frame: &[u8], answer: &mut [u64], samples: &mut [u8],);
    "pelgrant_fresh" fresh(build_out: u8, record: &mut [u64],);
    "pelgrant_arrive" arrive(
        record: &mut [u64], frame: &[u8], clock: u64, answer: &mut [u64], samples: &mut [u8],
    );
    "pelgrant_arrive_value" arrive_value(
        record: &[u64], frame: &[u8], clock: u64, after: &mut [u64], answer: &mut [u64], samples: &mut [u8],
    );
    "pelgrant_signal_read" signal_read(build_out: u8, frame: &[u8], answer: &mut [u64],);
    "pelgrant_fill" fill(last: &[u8], noise: &[u8], m_last: u8, out: &mut [u8], answer: &mut [u64],);
    "pelgrant_noise_level" noise_level(code: u8, answer: &mut [u64], level: &mut [f64],);
    "pelgrant_link" link(frame: &[u8], answer: &mut [u64],);
    "pelgrant_taken" taken(frame: &[u8], answer: &mut [u64],);
    "pelgrant_watch_start" watch_start(states: u8, refresh: u32, keepalive: u32, clock: u64, watch: &mut [u64],);
    "pelgrant_watch_tell" watch_tell(
        watch: &mut [u64], clock: u64, event: u8, bits: u8, flag: u8, answer: &mut [u64],
    );
    "pelgrant_line_add" line_add(line: &mut [u8], count: usize, frame: &[u8], answer: &mut [u64],);
    "pelgrant_line_next" line_next(
        line: &[u8], count: usize, place: usize, out: &mut [u8], answer: &mut [u64],
    );
    "pelgrant_queue_fresh" queue_fresh(queue: &mut [u32],);

    Ring:
    "pelgrant_queue_enter" queue_enter(store: &mut [u8], queue: &mut [u32], frame: &[u8], clock: u32,);
    "pelgrant_queue_take" queue_take(
        store: &[u8], queue: &mut [u32], to: u32, level: u8, address: u16, out: &mut [u8], answer: &mut [u64],
    );
    "pelgrant_queue_freed" queue_freed(queue: &[u32], level: u8, answer: &mut [u64],);
}
