//! Stand-in: the one macro.

#[macro_export]
macro_rules! nonzero {
    ($value:expr) => {
        std::num::NonZeroUsize::new($value).unwrap()
    };
}
