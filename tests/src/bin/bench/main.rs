//! Times of the library beside those of the implementation written apart, in one run, as Markdown.
//!
//!     cargo run --release --bin bench

use ofec_tests::random::Random;

mod files;
mod for_speed;
mod growth;
mod line;
mod memory;
mod programs;
mod rows;
mod same_structure;
mod table;

fn main() {
    if cfg!(debug_assertions) {
        println!("Not a release build: the times mean little.\n");
    }
    table::head();
    let (pairs, damage) = rows::run(&mut Random::new(1));
    line::run(&mut Random::new(2));
    programs::run(&mut Random::new(3));
    println!("\n{damage}");
    table::head_for_speed();
    rows::beside_speed(&pairs);
    line::beside_speed(&mut Random::new(6));
    growth::run(&mut Random::new(4));
    memory::run(&mut Random::new(5));
}
