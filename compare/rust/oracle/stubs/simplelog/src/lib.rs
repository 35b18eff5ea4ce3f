//! Stands in for simplelog: messages are checked by the compiler and never written.

#[macro_export]
macro_rules! debug {
    ($($message:tt)*) => {
        if false {
            let _ = format_args!($($message)*);
        }
    };
}

#[macro_export]
macro_rules! warn {
    ($($message:tt)*) => { $crate::debug!($($message)*) };
}

#[macro_export]
macro_rules! error {
    ($($message:tt)*) => { $crate::debug!($($message)*) };
}
