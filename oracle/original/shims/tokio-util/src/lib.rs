pub mod sync {
    pub struct CancellationToken;
}
