//! bench [quick] [SVG]: the proved library against the reference (judge, reading) and the baselines (the monitor's calls),
//! as Markdown tables; the plot of the judge's growth is written to SVG, if that is named. `quick` is a short try.

mod borrowed;
mod calls;
mod clock;
mod growth;
mod judging;
mod library;
mod monitor;
mod parts;
mod tuned;

const LEGEND: &str = "core: monitor_run on lent arrays; singly: monitor_call. (b) Rust over `&mut State`; (c) \
the same hand-tuned: rows of M tags, no early exit. Steps: live is one less two times in three; mixed lists: one more \
one time in three.";

fn main() {
    let (quick, svg): (Vec<String>, Vec<String>) = std::env::args().skip(1).partition(|word| word == "quick");
    let quick = !quick.is_empty();
    let turns = if quick { 1 } else { 7 };
    let (calls, mixed) = if quick { (5_000, 20_000) } else { (100_000, 1_000_000) };
    println!("Thread CPU time, medians of {turns} interleaved turns, equal checksums asserted. Microseconds a verdict:\n");
    judging::table(turns);
    println!("\nHow the judge's time grows: 32 identifiers, every template a `both`, prots that hold.\n");
    let plot = growth::plot(turns);
    if let Some(path) = svg.first() {
        println!("\n![ms a verdict against templates × assertions](judge-growth.svg)");
        std::fs::write(path, plot).unwrap_or_else(|e| panic!("{path}: {e}"));
    }
    println!("\nNanoseconds a call, {calls} calls of one kind, {mixed} mixed. {LEGEND}\n");
    monitor::table(turns, calls, mixed);
}
