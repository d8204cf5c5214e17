//! Stand-in for `tracing`: each log is counted by its text, and the one that names why an ack was
//! refused is noted.

#[macro_export]
macro_rules! debug {
    (?$sender:ident, ?$err:ident, $what:literal) => {{
        ::world::count($what);
        ::world::said($what, format!("{:?}", $err))
    }};
    ($($log:tt)*) => {
        ::world::count(stringify!($($log)*))
    };
}

#[macro_export]
macro_rules! counted {
    ($($log:tt)*) => {
        ::world::count(stringify!($($log)*))
    };
}

pub use counted as error;
pub use counted as info;
pub use counted as trace;
pub use counted as warn;
