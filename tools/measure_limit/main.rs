//! The data path of a fabric in plain Rust, with std alone and nothing proved: how fast portland could be. `tools/measure`
//! builds it by rustc, and measures portland beside it on the same frames.
//!
//!     measure_limit --k=8 --frames=200000 --out=DIR          frames are sent and swept, and what came of them is saved
//!     measure_limit --k=24 --frames=50000 --steps=500000     frames are sent, and steps are drawn
//!
//! Frames, pseudo addresses, flow hash, choice of ports, queues with their order, journal and captures are those of portland.
//! But every switch is placed from the start, all links live, every host registered and known to all, and no script is read:
//! so there is no control plane but the messages of ticks, no ARP, no group, no failure and no capture to read.

mod frames;
mod journal;
mod switch;
mod world;

use std::collections::HashMap;
use std::io;

use frames::turns;
use switch::PORTS;
use world::World;

/// Frames that are sent between two times that all queues are emptied.
const CHUNK: u64 = 1000;

fn play(k: usize, frames: u64, steps: Option<u64>) -> World {
    let mut world = World::new(k);
    let mut waiting = 0;
    for (host, numbers) in turns(frames, world.hosts) {
        waiting += numbers.end - numbers.start;
        world.send(host, numbers);
        if steps.is_none() && waiting >= CHUNK {
            world.drain();
            waiting = 0;
        }
    }
    match steps {
        Some(steps) => world.draw(steps),
        None => world.drain(),
    }
    world
}

/// The words `--NAME=VALUE`.
fn words() -> HashMap<String, String> {
    let split = |word: String| {
        let (name, value) = word.strip_prefix("--")?.split_once('=')?;
        Some((name.to_string(), value.to_string()))
    };
    std::env::args().skip(1).filter_map(split).collect()
}

fn main() -> io::Result<()> {
    let words = words();
    let number = |name: &str| words.get(name).map(|word| word.parse::<u64>().expect("a number"));
    let k = number("k").expect("--k=K is given") as usize;
    assert!(k % 2 == 0 && (4..=PORTS).contains(&k), "k is even, from 4 to {PORTS}");
    let world = play(k, number("frames").expect("--frames=N is given"), number("steps"));
    println!("crossings {} arrived {}", world.crossed, world.arrived);
    match words.get("out") {
        Some(folder) => world.save(folder),
        None => Ok(()),
    }
}

/// `rustc --edition=2021 --test tools/measure_limit/main.rs` makes the program that runs them, and those of the other files.
#[cfg(test)]
mod tests {
    use super::*;
    use frames::partner;

    /// Within an edge switch a frame crosses one switch, within a pod three, else five.
    #[test]
    fn every_frame_arrives_over_its_hops() {
        for (k, frames) in [(4, 1), (6, 3001)] {
            let half = k / 2;
            let hops = |host: usize, number| {
                let (a, b) = (host / half, partner(host, number, k * half * half) / half);
                if a == b {
                    1
                } else if a / half == b / half {
                    3
                } else {
                    5
                }
            };
            let due: u64 =
                turns(frames, k * half * half).flat_map(|(host, ns)| ns.map(move |n| hops(host, n))).sum();
            let world = play(k, frames, None);
            assert_eq!((world.arrived, world.crossed), (frames, due));
        }
    }

    #[test]
    fn drawn_steps_lead_frames_on() {
        let world = play(4, 50, Some(20_000));
        assert_eq!(world.arrived, 50);
    }
}
