//! No-op logging: the arguments are not evaluated.
pub use tracing_noop_attr::instrument;
#[macro_export]
macro_rules! debug {
    ($($t:tt)*) => {{}};
}
#[macro_export]
macro_rules! trace {
    ($($t:tt)*) => {{}};
}
#[macro_export]
macro_rules! info {
    ($($t:tt)*) => {{}};
}
