//! The archive's C functions against host/plain.rs, call by call: each thing through all its values, random walks of
//! events on random tables, one broken thing at a time, several at once, and garbage. Compared are the answer, every
//! byte of the output, and all memory that is lent, byte by byte: padding stays as it was, on a refusal or not. A reading
//! is a call as well: compared are its three members, the floating one by its bits, and every byte. So is a burst: compared
//! are its three members, the run of places to its end, and every byte around; and some bursts go through the call too,
//! one byte after the other, for what the receiver finds. Set requests are also cut at every entry boundary, and come
//! in pairs in both orders: then what the tables hold is compared with what they hold the other way. The first
//! difference ends the run, and so does an answer, the same on both sides, that is not the one aimed at.
//!
//!     differential [SEED] [--calls N] [--episode E] [--upto N]
//!
//! SEED: another run. --calls: at least so many calls. --episode: begin with that one; calls are numbered from there
//! on. --upto: stop at that call and print it.

mod plain;

#[path = "differential_parts/bench.rs"]
mod bench;
#[path = "differential_parts/broken.rs"]
mod broken;
#[path = "differential_parts/bursts.rs"]
mod bursts;
#[path = "differential_parts/counts.rs"]
mod counts;
#[path = "differential_parts/cutting.rs"]
mod cutting;
#[path = "differential_parts/every.rs"]
mod every;
#[path = "differential_parts/frames.rs"]
mod frames;
#[path = "differential_parts/garbage.rs"]
mod garbage;
#[path = "differential_parts/lent.rs"]
mod lent;
#[path = "differential_parts/random.rs"]
mod random;
#[path = "differential_parts/requests.rs"]
mod requests;
#[path = "differential_parts/seen.rs"]
mod seen;
#[path = "differential_parts/tables.rs"]
mod tables;
#[path = "differential_parts/walk.rs"]
mod walk;

struct Arguments {
    seed: u64,
    calls: u64,
    episode: u64,
    upto: Option<u64>,
}

fn arguments() -> Option<Arguments> {
    let mut given = Arguments { seed: 1, calls: 5_000_000, episode: 0, upto: None };
    let mut words = std::env::args().skip(1);
    while let Some(word) = words.next() {
        match word.as_str() {
            "--calls" => given.calls = words.next()?.parse().ok()?,
            "--episode" => given.episode = words.next()?.parse().ok()?,
            "--upto" => given.upto = Some(words.next()?.parse().ok()?),
            seed => given.seed = seed.parse().ok()?,
        }
    }
    Some(given)
}

fn main() {
    let Some(given) = arguments() else {
        println!("differential [SEED] [--calls N] [--episode E] [--upto N]");
        std::process::exit(2);
    };
    println!("differential: seed {}", given.seed);
    let mut bench = bench::Bench::new(given.seed, given.upto);
    let mut episode = given.episode;
    while bench.calls < given.calls || given.upto.is_some() {
        bench.begin(episode);
        if episode == 0 {
            every::episode(&mut bench);
        } else {
            walk::episode(&mut bench);
        }
        episode += 1;
    }
    println!();
    bench.counts.print();
    // a run that begins later has not seen all
    let missing = if given.episode == 0 { bench.counts.missing() } else { Vec::new() };
    for kind in &missing {
        println!("never reached: {kind}");
    }
    if !missing.is_empty() {
        println!(
            "differential: FAILED, {} kinds never reached in {} calls of seed {}",
            missing.len(),
            bench.calls,
            given.seed
        );
        std::process::exit(1);
    }
    println!(
        "differential: {} calls, {} of them readings and {} bursts, {} requests cut and {} pairs in both orders, \
         no difference",
        bench.calls, bench.readings, bench.bursts, bench.cuts, bench.pairs
    );
}
