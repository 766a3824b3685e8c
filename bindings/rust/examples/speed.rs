//! speed ZONES ROUNDS: the nanoseconds of a look-up, the best of nine turns, over the instants and local times that `callers/speed.c` asks.

use sefunjaro::{Clock, Source, Zone};
use std::hint::black_box;
use std::time::Instant;
use std::{env, error, fs};

/// Seconds all over the years 1970 to 2034, out of order.
fn second_of(turn: i64) -> i64 {
    turn * 7919 * 3600 % 2030000000
}

fn local_of(turn: i64) -> Clock {
    Clock {
        year: 1970 + (turn % 64) as i32,
        month: (1 + turn % 12) as u8,
        day: (1 + turn % 28) as u8,
        hour: (turn % 24) as u8,
        minute: 30,
        ..Clock::default()
    }
}

fn taken<T>(rounds: i64, part: impl Fn(i64) -> T) -> f64 {
    let start = Instant::now();
    for turn in 0..rounds {
        black_box(part(turn));
    }
    start.elapsed().as_nanos() as f64 / rounds as f64
}

fn turn(zone: &Zone, rounds: i64) -> [f64; 4] {
    [
        taken(rounds, |turn| zone.offset_at(second_of(turn), 0)),
        taken(rounds, |turn| zone.in_force(second_of(turn), 0)),
        taken(rounds, |turn| zone.clock_at(second_of(turn), 0)),
        taken(rounds, |turn| zone.instants(&local_of(turn))),
    ]
}

fn main() -> Result<(), Box<dyn error::Error>> {
    let words: Vec<String> = env::args().collect();
    let [_, path, rounds] = &words[..] else { return Err("usage: speed ZONES ROUNDS".into()) };
    let zone = Source::open(&fs::read(path)?)?.zone("America/New_York")?;
    let rounds = rounds.parse()?;
    let mut best = [f64::INFINITY; 4];
    for _ in 0..9 {
        for (least, nanos) in best.iter_mut().zip(turn(&zone, rounds)) {
            *least = least.min(nanos);
        }
    }
    for (name, nanos) in ["offset_at", "in_force", "clock_at", "instants"].iter().zip(best) {
        println!("{name} {nanos:.1}");
    }
    Ok(())
}
