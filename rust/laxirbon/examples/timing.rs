//! Measures what a call takes: of the library for a listing and for JSON, of reading that, and of copying it at the border.
//!
//!     cargo run --release --example timing MODE DOCUMENT

use laxirbon::{Body, Document, FunctionSignature, LoweredPath, LoweredType, Mode, json, listing};
use std::error::Error;
use std::hint::black_box;
use std::time::{Duration, Instant};
use std::{env, fs};

/// What a call takes on average, in the best of some rounds.
fn best(mut call: impl FnMut()) -> Duration {
    let round = || {
        let start = Instant::now();
        for _ in 0..1000 {
            call();
        }
        start.elapsed() / 1000
    };
    std::iter::repeat_with(round).take(20).min().unwrap_or_default()
}

fn read(mode: Mode, text: &str) -> bool {
    match mode {
        Mode::Body | Mode::Pat => Body::from_json(text).is_ok(),
        Mode::Path => LoweredPath::from_json(text).is_ok(),
        Mode::Type => LoweredType::from_json(text).is_ok(),
        Mode::Fn => FunctionSignature::from_json(text).is_ok(),
    }
}

fn main() -> Result<(), Box<dyn Error>> {
    let words: Vec<String> = env::args().skip(1).collect();
    let [mode, path] = words.as_slice() else { return Err("usage: timing MODE DOCUMENT".into()) };
    let mode = Mode::from_word(mode).ok_or("no such mode")?;
    let bytes = fs::read(path)?;
    let document = Document::from_bytes(&bytes);
    let (text, result) = (listing(mode, &document)?, json(mode, &document)?);
    println!("document {} bytes, listing {} bytes, result {} bytes", bytes.len(), text.len(), result.len());
    let lines = [
        ("listing", best(|| drop(black_box(listing(mode, &document))))),
        ("result", best(|| drop(black_box(json(mode, &document))))),
        ("copying the result", best(|| drop(black_box(result.as_bytes().to_vec())))),
        (
            "reading the result",
            best(|| {
                black_box(read(mode, black_box(&result)));
            }),
        ),
    ];
    for (what, time) in lines {
        println!("{what}: {:.2} us", time.as_secs_f64() * 1e6);
    }
    Ok(())
}
