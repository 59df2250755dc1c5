//! What `test_transcript` measures, in plain Rust, over `std::sync::mpsc::sync_channel`: plain_links CAPACITY RUNS.
//!
//!     rustc -O tools/plain_links/main.rs -o plain_links

use std::sync::mpsc::sync_channel;
use std::time::Instant;
use std::{env, thread};

#[allow(dead_code)]
#[derive(Clone, Copy, Debug, PartialEq, Eq)]
enum Datum {
    Int(i64),
    Bool(bool),
    Nil,
}

#[derive(Clone, Copy, Debug, PartialEq, Eq)]
enum Body {
    Value(Datum),
    Close,
}

#[derive(Clone, Copy, Debug, PartialEq, Eq)]
struct Msg {
    no: u32,
    body: Body,
}

/// 0, 1, 2 and so on, with a close behind them.
fn list() -> Vec<Msg> {
    let mut list = Vec::new();
    for no in 0..100_000u32 {
        let body = Body::Value(Datum::Int(i64::from(no)));
        list.push(Msg { no, body });
    }
    let body = Body::Close;
    list.push(Msg { no: 100_000, body });
    list
}

/// Whether one thread puts all of the list, and another takes just that.
fn passes(list: &[Msg], capacity: usize) -> bool {
    let (tx, rx) = sync_channel(capacity);
    thread::scope(|scope| {
        let put = scope.spawn(move || list.iter().all(|msg| tx.send(*msg).is_ok()));
        let taken = list.iter().all(|msg| rx.recv() == Ok(*msg)) && rx.recv().is_err();
        taken && put.join().unwrap()
    })
}

fn main() {
    let words: Vec<String> = env::args().collect();
    let capacity = words[1].parse().unwrap();
    let runs = words[2].parse().unwrap();
    let list = list();
    let start = Instant::now();
    let passed = (0..runs).all(|_: u32| passes(&list, capacity));
    let nanos = start.elapsed().as_nanos();
    let messages = list.len() as u64 * u64::from(runs);
    println!("{messages} messages, {nanos} ns, each as it was put: {passed}");
}
