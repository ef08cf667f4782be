//! Stands in for `log`. Nothing is written; what is to be written is still type-checked.

#[macro_export]
macro_rules! debug {
    ($($words:tt)*) => {
        if false {
            let _ = ::std::format_args!($($words)*);
        }
    };
}

#[macro_export]
macro_rules! info {
    ($($words:tt)*) => {
        $crate::debug!($($words)*)
    };
}
