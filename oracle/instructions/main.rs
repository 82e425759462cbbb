//! Calls one reader for many texts, so that callgrind can count the instructions inside it: `READER < LINES`. Prints the calls and the bytes.
use std::io::Read;

#[allow(dead_code)]
#[path = "../lines/src/ported.rs"]
mod ported;

use ported::Form;
use std::hint::black_box;

fn main() {
    let reader = std::env::args().nth(1).unwrap();
    let mut text = String::new();
    std::io::stdin().read_to_string(&mut text).unwrap();
    let form = Form { radix: 16, big: true, width: 3 };
    let (mut calls, mut bytes) = (0, 0);
    for line in text.lines().map(str::as_bytes) {
        calls += 1;
        bytes += line.len();
        match &reader[..] {
            "probe_number" => drop(black_box(ported::number(black_box(line), 0, 16))),
            "probe_whole" => drop(black_box(ported::whole(black_box(line), form))),
            "probe_relocation" => drop(black_box(ported::relocation(black_box(line), form))),
            "probe_entry" => drop(black_box(ported::entry(black_box(line), form))),
            _ => panic!("no such reader"),
        }
    }
    println!("{calls} {bytes}");
}
