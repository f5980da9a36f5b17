//! The published modules, called. `released` is the build without overflow checks, `checked` the one with them.
pub mod money;

pub mod released {
    use original as source;
    include!("changes.rs");
}

#[allow(dead_code)]
pub mod checked {
    use original_checked as source;
    include!("changes.rs");
}
