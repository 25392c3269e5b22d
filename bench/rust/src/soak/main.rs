//! The port beside the Rust in one process, call after call, until the minutes are over or an answer differs.
//! Usage: soak MINUTES SEED | soak exhaustive | soak small

mod boxes;
mod lifecycles;
mod logs;
mod numbers;
#[allow(dead_code)]
#[path = "../port.rs"]
mod port;
mod search;
mod updates;

use numbers::{Numbers, TELLING};
use std::time::{Duration, Instant};

/// Calls between two looks at the clock.
const ROUND: u64 = 2000;

fn soak(minutes: f64, seed: u64) -> Result<(), String> {
    let (began, whole) = (Instant::now(), Duration::from_secs_f64(minutes * 60.0));
    // the lifecycles have numbers of their own, so that the other calls of a seed stay as they were recorded
    let (mut numbers, mut others) = (Numbers::new(seed), Numbers::new(!seed));
    let (mut boxes, mut searches, mut updates, mut records) = (0u64, 0u64, [0u64; 3], 0u64);
    while began.elapsed() < whole {
        for _ in 0..ROUND {
            boxes::call(&mut numbers).map_or(Ok(()), Err)?;
            search::call(&mut numbers).map_or(Ok(()), Err)?;
            updates[0] += updates::sequence(&mut numbers)?;
            updates[1] += logs::internal_sequence(&mut numbers)?;
            updates[2] += logs::public_sequence(&mut numbers)?;
            records += lifecycles::sequence(&mut others)?;
        }
        boxes += 2 * ROUND;
        searches += ROUND;
    }
    let seconds = began.elapsed().as_secs();
    println!(
        "seed {seed}: no difference in {boxes} matrices of boxes, {searches} searches, {} updates of the extended \
         accumulator, {} of module 3's, {} of module 4's and {records} of a lifecycle ({seconds} s)",
        updates[0], updates[1], updates[2],
    );
    Ok(())
}

/// The searches of these kinds of square, and all sequences of so many frames over a tiny scene.
fn exhaustive(name: &str, squares: &[(usize, &[f64])], frames: u32) -> Result<(), String> {
    println!("{name}: no difference in {} searches", search::exhaustive(squares)?);
    let extended = updates::exhaustive(frames, |frames| updates::play(frames.iter().cloned()))?;
    let internal =
        updates::exhaustive(frames, |frames| logs::internal_play(frames.iter().map(|f| (1, f.clone(), logs::near(f)))))?;
    let public = updates::exhaustive(frames, |frames| logs::public_play(frames.iter().map(|f| (1, f.clone()))))?;
    println!("{name}: no difference in {extended} updates of the extended accumulator, {internal} of module 3's, {public} of module 4's");
    Ok(())
}

fn main() {
    let words: Vec<String> = std::env::args().skip(1).collect();
    let outcome = match words.iter().map(String::as_str).collect::<Vec<_>>()[..] {
        ["exhaustive"] => exhaustive("exhaustive", &[(2, &TELLING[..]), (3, &search::FIVE)], 4),
        ["small"] => exhaustive("small", &[(2, &TELLING[..])], 3),
        [minutes, seed] => match (minutes.parse(), seed.parse()) {
            (Ok(minutes), Ok(seed)) => soak(minutes, seed),
            _ => Err("soak: minutes and a seed are numbers".into()),
        },
        _ => Err("Usage: soak MINUTES SEED | soak exhaustive | soak small".into()),
    };
    if let Err(what) = outcome {
        eprintln!("{what}");
        std::process::exit(1);
    }
}
