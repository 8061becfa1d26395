//! The plain counterpart of what the crate `bench` measures of a board: as many threads add to one atomic word until it is past the numbers of a round.
use std::sync::atomic::{AtomicU64, Ordering::SeqCst};
use std::{env, thread};

const NUMBERS: u64 = 1_000_000;

fn draw_all(claim: &AtomicU64) {
    while claim.fetch_add(1, SeqCst) < NUMBERS {}
}

fn main() {
    let numbers: Vec<u64> = env::args().skip(1).map(|word| word.parse().unwrap()).collect();
    let (threads, rounds) = (numbers[0], numbers[1]);
    let mut asked = 0;
    for _ in 0..rounds {
        let claim = AtomicU64::new(0);
        thread::scope(|scope| {
            for _ in 1..threads {
                scope.spawn(|| draw_all(&claim));
            }
            draw_all(&claim);
        });
        asked += claim.into_inner();
    }
    println!("{threads} threads asked {asked} times");
}
