//! Sizes read while running, carried over to the constants that the Rust's types take.

/// `sized!(body; N = n, M = m)`: the body with the constants N and M, each 1 to 4.
#[macro_export]
macro_rules! sized {
    ($body:expr;) => { $body };
    ($body:expr; $name:ident = $value:expr $(, $more:ident = $rest:expr)*) => {
        match $value {
            1 => { const $name: usize = 1; $crate::sized!($body; $($more = $rest),*) }
            2 => { const $name: usize = 2; $crate::sized!($body; $($more = $rest),*) }
            3 => { const $name: usize = 3; $crate::sized!($body; $($more = $rest),*) }
            4 => { const $name: usize = 4; $crate::sized!($body; $($more = $rest),*) }
            _ => Err("a size outside 1 to 4"),
        }
    };
}

/// The rooms that PROTOCOL.md allows a smoother.
pub const ROOMS: [usize; 5] = [1, 2, 3, 8, 64];

/// `roomed!(body; T = room)`: the body with the constant T, one of `ROOMS`.
#[macro_export]
macro_rules! roomed {
    ($body:expr; $name:ident = $value:expr) => {
        match $value {
            1 => {
                const $name: usize = 1;
                $body
            }
            2 => {
                const $name: usize = 2;
                $body
            }
            3 => {
                const $name: usize = 3;
                $body
            }
            8 => {
                const $name: usize = 8;
                $body
            }
            64 => {
                const $name: usize = 64;
                $body
            }
            _ => Err("a room other than 1, 2, 3, 8 or 64"),
        }
    };
}
