pub struct Gauge;
impl Gauge {
    pub fn set<T>(&self, _v: T) {}
    pub fn increment<T>(&self, _v: T) {}
    pub fn decrement<T>(&self, _v: T) {}
}
#[macro_export]
macro_rules! gauge {
    ($($t:tt)*) => {
        $crate::Gauge
    };
}
