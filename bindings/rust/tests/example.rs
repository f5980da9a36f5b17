//! Runs the examples, each of which tests what it prints; the first stands in the crate's documentation and in README.md. They are run
//! here since a cross build runs no documentation tests, and cargo builds examples without running them.
macro_rules! example {
    ($name:ident, $file:literal) => {
        #[allow(dead_code)]
        mod $name {
            include!($file);

            #[test]
            fn runs() {
                main().unwrap();
            }
        }
    };
}

example!(first, "../examples/first.rs");
example!(desk_morning, "../examples/desk_morning.rs");
example!(ledger_day, "../examples/ledger_day.rs");

#[test]
fn readme_shows_it() {
    let shown = format!("```rust\n{}```\n", include_str!("../examples/first.rs"));
    assert!(include_str!("../README.md").contains(&shown), "README.md shows another example");
}
