//! Lends numbers to the Rust in place of its random generators.

/// Runs `work` with the start's numbers and the rounding draws lent; it must read them all.
pub fn lent<T>(start: &[f64], rounding: &[f64], work: impl FnOnce() -> T) -> T {
    smolprng::lend(start, rounding);
    let result = work();
    assert_eq!(smolprng::unread(), (0, 0), "lent numbers were left unread");
    result
}
