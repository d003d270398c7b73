//! `isis-gr-differential CALLS [SEED]`: so many calls on the archive, through its wrapper, and on the reference; then the branches that were reached.
use isis_gr_differential::{compare, coverage::Coverage, isolation, proved::Proved, words};

fn main() {
    let mut words = std::env::args().skip(1).map(|word| word.parse::<u64>().expect("a number"));
    let calls = words.next().unwrap_or(1_000_000);
    let first = words.next().unwrap_or(1);
    let mut all = Coverage::default();
    let runs = calls.div_ceil(400);
    for seed in first..first + runs {
        all.add(&compare::run(seed, 400));
    }
    for seed in first..first + runs / 4 {
        isolation::run::<Proved>(seed, 200);
        words::run(seed, 400);
    }
    print!("{all}");
    println!("{} calls on both, the same answers, records and replies; {} pairs of runs as demand 3 has them", runs * 400, runs / 4);
    println!("{} calls more, whose words hold what the header says of them", runs / 4 * 400);
    assert!(all.missing().is_empty(), "never reached: {:?}", all.missing());
}
