//! corpus read|judge|monitor SEED N FOLDER [LONG]: writes FOLDER/cases and FOLDER/stdout; counts by kind go to stderr.
//! corpus answer read|judge|monitor FILE: prints the reference's answers to a file of cases.
//! corpus promise SEED N: the box promise on N accepted pairs with a list of calls each; stores nothing.

use reference::damage::{corners, damaged, large, overlong, sweep, Pair};
use reference::generate::{calls, calls_from, Draft, Style};
use reference::history::promise;
use reference::judge::{assertion, first_broken, judge, locate, read, show, Broken, Text, Verdict};
use reference::machine::{started, Answer};
use reference::near;
use reference::plan::{has, Assertion, Form, Kind, Plan};
use reference::read::MAX_TEXT;
use reference::replay::{answer_line, dump, read_calls, replay_at};
use reference::rng::Rng;
use reference::routes::{joined, search};
use std::collections::BTreeMap;

#[derive(Clone)]
struct Case {
    plan: Vec<u8>,
    policy: Vec<u8>,
}

type Counts = BTreeMap<String, usize>;

fn main() {
    let args: Vec<String> = std::env::args().collect();
    if args.len() == 4 && args[1] == "answer" {
        return answer(&args[2], &args[3]);
    }
    let number = |i: usize, other: usize| args.get(i).map_or(other, |a| a.parse().unwrap_or_else(|_| usage()));
    let (seed, n) = (number(2, 1) as u64, number(3, 100));
    let mut r = Rng::new(seed);
    let (cases, stdout, counts) = match args.get(1).map(String::as_str) {
        Some("read") => read_corpus(&mut r, n, number(5, 2)),
        Some("judge") => judge_corpus(&mut r, n, number(5, 40)),
        Some("monitor") => monitor_corpus(&mut r, n),
        Some("promise") => return soak(&mut r, n),
        _ => usage(),
    };
    let folder = args.get(4).unwrap_or_else(|| usage());
    std::fs::write(format!("{folder}/cases"), &cases).expect("cases written");
    std::fs::write(format!("{folder}/stdout"), &stdout).expect("stdout written");
    for (kind, count) in counts {
        eprintln!("{count:6} {kind}");
    }
    eprintln!("{:6} bytes of cases, {} of stdout", cases.len(), stdout.len());
}

fn usage() -> ! {
    eprintln!("usage: corpus read|judge|monitor SEED N FOLDER [LONG]");
    eprintln!("       corpus answer read|judge|monitor FILE");
    eprintln!("       corpus promise SEED N");
    std::process::exit(2)
}

fn count(counts: &mut Counts, kind: impl Into<String>) {
    *counts.entry(kind.into()).or_insert(0) += 1;
}

fn write_case(out: &mut Vec<u8>, c: &Case) {
    out.extend(format!("{:04x}{:04x}", c.plan.len(), c.policy.len()).bytes());
    out.extend(&c.plan);
    out.extend(&c.policy);
}

fn answer(kind: &str, file: &str) {
    let data = std::fs::read(file).expect("the file of cases");
    let mut rest = &data[..];
    let mut out = String::new();
    while !rest.is_empty() {
        let mut hex = |digits: usize| {
            let (head, tail) = rest.split_at(digits);
            rest = tail;
            usize::from_str_radix(std::str::from_utf8(head).expect("hex"), 16).expect("hex")
        };
        let (plan, policy) = (hex(4), hex(4));
        let (calls, next) = if kind == "monitor" { (hex(6), hex(8) as u32) } else { (0, 1) };
        let c = Case { plan: rest[..plan].to_vec(), policy: rest[plan..plan + policy].to_vec() };
        let calls = &rest[plan + policy..plan + policy + calls];
        match kind {
            "read" => out += &(read_line(&c) + "\n"),
            "judge" => out += &(judge_line(&c) + "\n"),
            "monitor" => out += &replay_at(&c.plan, &c.policy, calls, next),
            _ => usage(),
        }
        rest = &rest[plan + policy + calls.len()..];
    }
    print!("{out}");
}

fn shuffle<T>(r: &mut Rng, list: &mut [T]) {
    for i in (1..list.len()).rev() {
        list.swap(i, r.below(i + 1));
    }
}

/// Cases sorted by kind, taken from each kind in turn.
struct Buckets<K>(BTreeMap<K, Vec<Case>>);

impl<K: Ord> Buckets<K> {
    fn take(self, n: usize) -> Vec<Case> {
        let mut rows: Vec<std::vec::IntoIter<Case>> = self.0.into_values().map(Vec::into_iter).collect();
        let mut taken = vec![];
        while taken.len() < n {
            let before = taken.len();
            for row in &mut rows {
                taken.extend(row.next());
            }
            assert!(taken.len() > before, "too few candidates");
        }
        taken.truncate(n);
        taken
    }
}

// Reading

/// The key of the line that was due at this number; `extra` after the last.
fn due(case: &Case, text: Text, line: usize) -> &'static str {
    let head = |t: &[u8]| {
        let first = String::from_utf8_lossy(t.split(|&b| b == 10).next().unwrap()).to_string();
        first.split('=').nth(1).and_then(|v| v.parse().ok()).unwrap_or(64)
    };
    match (text, line) {
        (_, 0) => "too long",
        (Text::Plan, 1) => "templates",
        (Text::Plan, 2) => "identifiers",
        (Text::Plan, l) if l > 2 + 7 * head(&case.plan) => "extra",
        (Text::Plan, l) => ["name", "form", "lab", "pos", "neg", "creates", "risk"][(l - 3) % 7],
        (Text::Policy, 1) => "assertions",
        (Text::Policy, l) if l > 1 + 5 * head(&case.policy) => "extra",
        (Text::Policy, l) => ["kind", "source", "sink", "anc", "declass"][(l - 2) % 5],
    }
}

fn case((plan, policy): Pair) -> Case {
    Case { plan, policy }
}

fn corner_cases() -> Vec<Case> {
    corners().into_iter().map(case).collect()
}

/// One number for all that was read, places that stay blank included; the README says over what.
fn sum(plan: &Plan, policy: &[Assertion]) -> u64 {
    let mut values = vec![];
    for t in &plan.templates {
        match t.form {
            Form::End => values.push(0),
            Form::Go(y) => values.extend([1, y as u64]),
            Form::Either(y, z) => values.extend([2, y as u64, z as u64]),
            Form::Both(y, z) => values.extend([3, y as u64, z as u64]),
        }
        values.extend([t.lab, t.pos, t.neg, t.creates, t.risk as u32].map(u64::from));
    }
    for i in 0..32 {
        values.extend(policy.get(i).map_or([0; 5], |a| {
            [(a.kind == Kind::Prot) as u64, a.source as u64, a.sink as u64, a.anc as u64, a.declass]
        }));
    }
    values.into_iter().fold(0, |sum, v| (sum * 31 + v % 1_000_003) % 1_000_003)
}

fn read_line(c: &Case) -> String {
    match read(&c.plan, &c.policy) {
        Ok((plan, _, policy)) => format!("read {} {} {} {}", plan.n, plan.m, policy.len(), sum(&plan, &policy)),
        Err((text, refusal)) => format!("{} {} {}", text.word(), refusal.number, refusal.line),
    }
}

/// So many cases at least of each number of each text.
const EACH_NUMBER: usize = 20;

fn read_corpus(r: &mut Rng, n: usize, long: usize) -> (Vec<u8>, String, Counts) {
    let mut buckets = Buckets(BTreeMap::new());
    for _ in 0..30 * n {
        let c = case(damaged(r));
        // what has few places gets more shares
        let kind = match read(&c.plan, &c.policy) {
            Ok(_) => ("read", 0, "", r.below(6)),
            Err((t, f)) => (t.word(), f.number, due(&c, t, f.line), match f.number {
                2 => r.below(2),
                4 if t == Text::Policy => r.below(3),
                5 | 6 => r.below(3),
                _ => 0,
            }),
        };
        buckets.0.entry(kind).or_insert_with(Vec::new).push(c);
    }
    let mut list = corner_cases();
    list.extend(sweep().into_iter().map(case));
    for text in [Text::Plan, Text::Policy] {
        list.extend((0..long).map(|_| case(overlong(r, text))));
        // one byte less is not too long
        let mut c = case(overlong(r, text));
        if text == Text::Plan { &mut c.plan } else { &mut c.policy }.truncate(MAX_TEXT);
        list.push(c);
        list.extend((0..8).map(|_| case(large(r, Some(text)))));
    }
    list.extend((0..4).map(|_| case(large(r, None))));
    list.extend(buckets.take(n - list.len()));
    shuffle(r, &mut list);
    let (mut cases, mut stdout, mut counts) = (vec![], String::new(), Counts::new());
    for c in &list {
        write_case(&mut cases, c);
        stdout += &(read_line(c) + "\n");
        match read(&c.plan, &c.policy) {
            Ok(_) => count(&mut counts, "read"),
            Err((t, f)) => {
                count(&mut counts, format!("{} {}", t.word(), f.number));
                count(&mut counts, format!("{} {} ({})", t.word(), f.number, due(c, t, f.line)));
            }
        }
    }
    for (text, numbers) in [("plan", [1, 2, 3, 4, 5]), ("policy", [1, 2, 3, 4, 6])] {
        for number in numbers {
            let kind = format!("{text} {number}");
            assert!(counts.get(&kind).is_some_and(|&c| c >= EACH_NUMBER), "too few cases of {kind}");
        }
    }
    (cases, stdout, counts)
}

// Judging

fn judge_line(c: &Case) -> String {
    let verdict = match judge(&c.plan, &c.policy) {
        Verdict::Accepted => "accepted".to_string(),
        Verdict::Unread(text, f) => format!("unread {} {} {}", text.word(), f.number, f.line),
        Verdict::Broken(b) => format!("broken {} {} {} {}", b.rule, b.first, b.second, b.identifier),
    };
    let (text, start, end) = locate(&c.plan, &c.policy);
    let shown: String = show(&c.plan, &c.policy).iter().take(32).map(|b| format!("{b:02x}")).collect();
    format!("{verdict} {} {start} {end} {shown}", text.word())
}

fn judged_kind(c: &Case) -> String {
    match judge(&c.plan, &c.policy) {
        Verdict::Accepted => "accepted".to_string(),
        Verdict::Unread(text, f) => format!("unread {} {}", text.word(), f.number),
        Verdict::Broken(b) => format!("broken {}", b.rule),
    }
}

/// What sets cases of one verdict apart, so that each sort gets its share.
fn flavour(d: &Draft, broken: Option<Broken>) -> (usize, usize) {
    let plan = &d.plan;
    let reached = search(plan, 0, None);
    let received = |x: usize| plan.templates[x].lab | if plan.templates[x].risk { plan.templates[x].pos } else { 0 };
    // identifiers whose fate in rule 17 hangs on Joined
    let hangs = |place: usize| {
        let a = &d.policy[place];
        let both = plan.templates[a.source].lab & received(a.sink);
        let kept = |t: usize| (0..plan.n as usize).all(|x| a.declass >> x & 1 == 1 || !has(plan.templates[x].neg, t));
        (0..32).any(|t| has(both, t) && kept(t)) && reached[a.source] && reached[a.sink]
    };
    match broken {
        Some(b) if b.rule == 11 => (reached[b.first] as usize, (b.identifier > 0) as usize),
        Some(b) if b.rule <= 16 => {
            let second_edge = match plan.templates[b.first].form {
                Form::Either(y, z) | Form::Both(y, z) => y != z && z as usize == b.second,
                _ => false,
            };
            (reached[b.first] as usize + 2 * second_edge as usize, (b.identifier > 0) as usize)
        }
        Some(b) if b.rule == 17 => (b.first.min(1), hangs(b.first) as usize * 2),
        Some(b) => (b.first.min(1), (b.identifier > 0) as usize),
        None => {
            let secrecies: Vec<usize> = (0..d.policy.len()).filter(|&i| d.policy[i].kind == Kind::Secrecy).collect();
            // saved by not being Joined although the Sink has every identifier of the Source
            let saved = secrecies.iter().any(|&i| {
                let a = &d.policy[i];
                plan.templates[a.source].lab & !received(a.sink) == 0
                    && reached[a.source] && reached[a.sink]
                    && (0..plan.m as usize).any(|t| !joined(plan, t, a.source, a.sink, a.anc))
            });
            let prot = d.policy.iter().any(|a| {
                a.kind == Kind::Prot && plan.templates[a.source].lab != 0 && reached[a.source] && reached[a.sink]
            });
            (saved as usize + 2 * (!secrecies.is_empty()) as usize, prot as usize)
        }
    }
}

/// For each mistake in rules 17 to 19 some pairs of one assertion, on which a judge with that mistake is caught:
/// random assertions first, then for the rarer mistakes all of them on each plan.
fn near_misses(r: &mut Rng, each: usize) -> Vec<Case> {
    let mut left: BTreeMap<near::Mistake, usize> = near::ALL.iter().map(|&w| (w, each)).collect();
    let mut list = vec![];
    for round in 0..25_000 {
        if left.is_empty() {
            break;
        }
        let (n, m) = (r.range(3, 6), r.range(1, 2));
        let mut d = Draft::random(r, n, m);
        let tried = if round < 5_000 { (0..10).map(|_| d.random_assertion(r)).collect() } else { every_assertion(&d) };
        for a in tried {
            let right = assertion(&d.plan, 0, &a);
            let catches = |w: near::Mistake| near::assertion(&d.plan, 0, &a, w) != right;
            let caught: Vec<near::Mistake> = left.keys().copied().filter(|&w| catches(w)).collect();
            for w in &caught {
                *left.get_mut(w).unwrap() -= 1;
            }
            left.retain(|_, count| *count > 0);
            if !caught.is_empty() {
                d.policy = vec![a];
                list.push(Case { plan: d.plan_text(), policy: d.policy_text() });
            }
        }
    }
    for (w, count) in left {
        eprintln!("{count:6} pairs too few that catch {w:?}");
    }
    list
}

/// Each source, sink and anc: prot, and secrecy with all other templates in Declass.
fn every_assertion(d: &Draft) -> Vec<Assertion> {
    let n = d.plan.n as usize;
    let mut list = vec![];
    for i in 0..n * n * n {
        let (source, sink, anc) = (i / n / n, i / n % n, i % n);
        let others = ((1u64 << n) - 1) & !(1 << source | 1 << sink);
        if d.plan.templates[source].lab & d.plan.templates[sink].lab != 0 {
            list.push(Assertion { kind: Kind::Prot, source, sink, anc, declass: 0 });
            list.push(Assertion { kind: Kind::Secrecy, source, sink, anc, declass: others });
        }
    }
    list
}

fn judge_corpus(r: &mut Rng, n: usize, long: usize) -> (Vec<u8>, String, Counts) {
    let mut list = corner_cases();
    // unread: 40 of each number of each text
    let mut unread: BTreeMap<(&str, u8), Buckets<&str>> = BTreeMap::new();
    for _ in 0..20_000 {
        let c = case(damaged(r));
        if let Err((t, f)) = read(&c.plan, &c.policy) {
            let rows = unread.entry((t.word(), f.number)).or_insert_with(|| Buckets(BTreeMap::new()));
            rows.0.entry(due(&c, t, f.line)).or_default().push(c);
        }
    }
    assert_eq!(unread.len(), 8);
    for rows in unread.into_values() {
        list.extend(rows.take(40));
    }
    for text in [Text::Plan, Text::Policy] {
        list.extend((0..long).map(|_| case(overlong(r, text))));
    }
    // the largest plans: accepted, and changed until each rule is broken
    let mut wanted: Vec<u8> = (12..=19).chain([11, 0, 0]).collect();
    while !wanted.is_empty() {
        let whole = Draft::large(r);
        for _ in 0..12 {
            let mut d = whole.clone();
            match r.below(4) {
                0 => {}
                1 => {
                    let place = r.below(d.policy.len());
                    d.policy[place] = d.random_assertion(r);
                }
                _ => d.change(r),
            }
            let rule = first_broken(&d.plan, &d.policy).map_or(0, |b| b.rule);
            if let Some(i) = wanted.iter().position(|&w| w == rule) {
                wanted.remove(i);
                list.push(Case { plan: d.plan_text(), policy: d.policy_text() });
                if rule == 0 {
                    break;
                }
            }
        }
    }
    list.extend(near_misses(r, 8));
    // accepted and rules 11 to 19 in equal shares
    let rest = n - list.len();
    let mut rules: BTreeMap<u8, Buckets<(usize, usize)>> = BTreeMap::new();
    for _ in 0..60 * n {
        let d = Draft::candidate(r);
        let broken = first_broken(&d.plan, &d.policy);
        let rows = rules.entry(broken.map_or(0, |b| b.rule)).or_insert_with(|| Buckets(BTreeMap::new()));
        let row = rows.0.entry(flavour(&d, broken)).or_default();
        if row.len() < rest / 10 + 1 {
            row.push(Case { plan: d.plan_text(), policy: d.policy_text() });
        }
    }
    for (i, rows) in rules.into_values().enumerate() {
        list.extend(rows.take(rest / 10 + (i < rest % 10) as usize));
    }
    assert_eq!(list.len(), n);
    shuffle(r, &mut list);
    let (mut cases, mut stdout, mut counts) = (vec![], String::new(), Counts::new());
    for c in &list {
        write_case(&mut cases, c);
        stdout += &(judge_line(c) + "\n");
        count(&mut counts, judged_kind(c));
    }
    (cases, stdout, counts)
}

// Running

const NO_CALLS: [&str; 8] = [
    "step 0 00\n", "step 0  0\n", "send 0 4294967296\n", "raise 0\n", "lower 0 0 \n", "Step 0 0\n", "\n", "step 0 0",
];

fn kind_of(answer: Answer) -> String {
    answer_line(answer).trim_end().to_string()
}

fn monitor_corpus(r: &mut Rng, n: usize) -> (Vec<u8>, String, Counts) {
    let (mut cases, mut stdout, mut counts) = (vec![], String::new(), Counts::new());
    let mut made = 0;
    while made < n {
        let style = match made % 10 {
            0 => Style::Grow,
            1..=3 => Style::Wild,
            _ => Style::Normal,
        };
        let d = match made % 50 {
            17 => Draft::large(r),
            _ => Draft::candidate(r),
        };
        if first_broken(&d.plan, &d.policy).is_some() || (d.policy.is_empty() && r.percent(90)) {
            continue;
        }
        if made % 2 == 0 && !d.policy.iter().any(|a| a.kind == Kind::Secrecy) {
            continue;
        }
        let length = if style == Style::Grow { 240 } else { r.range(150, 170) };
        let list = calls(r, &d.plan, length, style);
        let (answers, s, breach) = promise(&d.plan, &d.policy, &list, 10);
        let of = |a: Answer| answers.iter().filter(|&&b| a == b).count();
        let worth = match style {
            Style::Grow => of(Answer::Refused(23)) >= 4,
            Style::Wild => of(Answer::Refused(25)) >= 1 && of(Answer::Held) >= 1 && s.next > 10,
            Style::Normal => of(Answer::Delivered) >= 4 && of(Answer::Held) >= 2 && s.next > 15 && s.live > 1,
        };
        if !worth {
            continue;
        }
        if let Some((after, breach)) = breach {
            let texts = [d.plan_text(), d.policy_text()].concat();
            panic!("the promise broke after {after} calls: {breach:?}\n{}", String::from_utf8_lossy(&texts));
        }
        let c = Case { plan: d.plan_text(), policy: d.policy_text() };
        let mut text: String = list.iter().map(|c| c.text()).collect();
        let mut expected: String = answers.iter().map(|&a| answer_line(a)).collect();
        if made % 20 == 19 {
            // a line that is no call stops the run
            text += NO_CALLS[made / 20 % NO_CALLS.len()];
            expected += &format!("unread line={}\n", list.len() + 1);
            count(&mut counts, "lists with a line that is no call");
        } else {
            expected += &dump(&s);
        }
        assert_eq!(replay_at(&c.plan, &c.policy, text.as_bytes(), 1), expected);
        assert!(read_calls(text.as_bytes()).0 == list);
        write_run(&mut cases, &c, &text, 1);
        stdout += &expected;
        answers.iter().for_each(|&a| count(&mut counts, kind_of(a)));
        d.policy.iter().for_each(|a| count(&mut counts, format!("assertions {:?}", a.kind)));
        count(&mut counts, format!("lists {style:?}"));
        made += 1;
    }
    for late in 0..LATE {
        let (c, text, next, answers) = late_case(r, late);
        write_run(&mut cases, &c, &text, next);
        stdout += &replay_at(&c.plan, &c.policy, text.as_bytes(), next);
        answers.iter().for_each(|&a| count(&mut counts, kind_of(a)));
        count(&mut counts, "lists from a late next serial");
    }
    (cases, stdout, counts)
}

fn write_run(out: &mut Vec<u8>, c: &Case, text: &str, next: u32) {
    out.extend(format!("{:04x}{:04x}{:06x}{next:08x}", c.plan.len(), c.policy.len(), text.len()).bytes());
    out.extend([&c.plan[..], &c.policy, text.as_bytes()].concat());
}

/// How many lists begin at a next serial near the last, so that 24 is answered.
const LATE: usize = 20;

/// A list whose serials run out: the calls are drawn as they come, from the state with that next serial.
fn late_case(r: &mut Rng, late: usize) -> (Case, String, u32, Vec<Answer>) {
    loop {
        let d = Draft::candidate(r);
        if first_broken(&d.plan, &d.policy).is_some() {
            continue;
        }
        let next = u32::MAX - late as u32;
        let mut s = started(d.plan);
        s.next = u64::from(next);
        let list = calls_from(r, s, 60, Style::Normal);
        let answers: Vec<Answer> = list.iter().map(|c| c.run(&mut s)).collect();
        if answers.iter().filter(|&&a| a == Answer::Refused(24)).count() >= 2 {
            let text = list.iter().map(|c| c.text()).collect();
            return (Case { plan: d.plan_text(), policy: d.policy_text() }, text, next, answers);
        }
    }
}

/// The promise on many lists, and how often it breaks where the judge says broken (the checker can say no).
fn soak(r: &mut Rng, n: usize) {
    let (mut lists, mut made, mut counts) = (0, 0, Counts::new());
    while lists < n {
        let d = Draft::candidate(r);
        let rule = first_broken(&d.plan, &d.policy).map_or(0, |b| b.rule);
        if d.policy.is_empty() || (1..17).contains(&rule) {
            continue;
        }
        let style = *r.pick(&[Style::Normal, Style::Normal, Style::Wild, Style::Grow]);
        let list = calls(r, &d.plan, 100, style);
        let (_, _, breach) = promise(&d.plan, &d.policy, &list, 10);
        if rule == 0 {
            assert_eq!(breach, None, "{}", String::from_utf8_lossy(&[d.plan_text(), d.policy_text()].concat()));
            lists += 1;
            made += list.len();
        } else {
            count(&mut counts, format!("broken {rule}, promise {}", if breach.is_some() { "broken too" } else { "kept" }));
        }
    }
    eprintln!("{lists} accepted pairs, {made} calls, promise kept\n{counts:?}");
}
