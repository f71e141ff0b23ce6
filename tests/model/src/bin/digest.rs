//! Answers the long list itself, and writes one hash of it all and a tally of
//! the outcomes.

fn main() {
    print!("{}", collector_model::digest());
}
