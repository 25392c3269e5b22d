//! The port beside the Rust, in one process: the same inputs, both built for release, five rounds.
//! Words name the parts to time (boxes, search, extended, mot, metrics, scores, soundness); without one all are.

mod boxes;
mod extended;
mod metrics;
mod mot;
#[allow(dead_code)]
mod port;
mod rounds;
mod scores;
mod search;
mod soundness;

const PARTS: &[(&str, fn())] = &[
    ("boxes", boxes::bench),
    ("search", search::bench),
    ("extended", extended::bench),
    ("mot", mot::bench),
    ("metrics", metrics::bench),
    ("scores", scores::bench),
    ("soundness", soundness::bench),
];

fn main() {
    let asked: Vec<String> = std::env::args().skip(1).collect();
    if let Some(word) = asked.iter().find(|word| PARTS.iter().all(|(name, _)| name != word)) {
        let names: Vec<_> = PARTS.iter().map(|(name, _)| *name).collect();
        eprintln!("bench: no part is called {word}; there are {}", names.join(", "));
        std::process::exit(2);
    }
    rounds::heading();
    for (name, bench) in PARTS {
        if asked.is_empty() || asked.iter().any(|word| word == name) {
            bench();
        }
    }
}
