pub mod sync {
    pub struct Notify;
}
