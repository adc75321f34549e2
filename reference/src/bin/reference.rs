//! reference judge|show|replay [DIR]: the programs judge, show and replay on the files of DIR.

use reference::{judge, replay};

fn main() {
    let args: Vec<String> = std::env::args().collect();
    let folder = args.get(2).map_or(".", String::as_str);
    let file = |name: &str| std::fs::read(format!("{folder}/{name}")).unwrap_or_default();
    let (plan, policy) = (file("plan.txt"), file("policy.txt"));
    match args.get(1).map(String::as_str) {
        Some("judge") => print!("{}", judge::printed(&judge::judge(&plan, &policy))),
        Some("show") => {
            use std::io::Write;
            let line = [judge::show(&plan, &policy), b"\n"].concat();
            std::io::stdout().write_all(&line).expect("stdout");
        }
        Some("replay") => print!("{}", replay::replay(&plan, &policy, &file("calls.txt"))),
        _ => eprintln!("usage: reference judge|show|replay [DIR]"),
    }
}
