//! Times the desk's code beside the same method in plain Rust, in one run, on the same inputs; or, by `--turns`, beside the
//! desk's code before changes. Every answer is compared first: a faster wrong answer does not count.

// The loops are the desk's own, by index.
#![allow(clippy::needless_range_loop, clippy::manual_is_multiple_of)]

mod binomial;
mod chains;
mod change;
mod compose;
#[path = "../../rust/desk.rs"]
mod desk;
mod listing;
mod modulus;
mod plain;
mod quick;
mod residue;
mod root;
mod split;
mod text;
mod timing;
mod turns;
mod typed;

fn main() {
    let words: Vec<String> = std::env::args().skip(1).collect();
    match words.iter().map(String::as_str).collect::<Vec<_>>()[..] {
        [] => beside_plain(),
        ["--list"] => listing::plain(),
        ["--turns", ref sides @ ..] => turns::run(sides),
        _ => panic!("--turns NAME LIBRARY LIST..., or nothing"),
    }
}

fn beside_plain() {
    timing::head(timing::CALLS, &["desk", "plain Rust"]);
    residue::run();
    split::run();
    quick::run();
    compose::run();
    change::run();
    chains::run();
    text::run();
    listing::run();
}
