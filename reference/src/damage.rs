//! Texts damaged line by line.

use crate::generate::Draft;
use crate::judge::Text;
use crate::read::MAX_TEXT;
use crate::rng::Rng;

/// The key of a line, as far as it has one.
fn key(line: &[u8]) -> &[u8] {
    &line[..line.iter().position(|&b| b == b'=').unwrap_or(line.len())]
}

/// Where the lines lie, without byte 10.
fn lines(text: &[u8]) -> Vec<(usize, usize)> {
    let mut list = vec![];
    let mut start = 0;
    for (i, &b) in text.iter().enumerate() {
        if b == 10 {
            list.push((start, i));
            start = i + 1;
        }
    }
    list
}

/// One damage to one line, each kind of line alike often.
fn damage(r: &mut Rng, d: &Draft, text: &mut Vec<u8>) {
    let all = lines(text);
    if all.is_empty() {
        return;
    }
    let mut keys: Vec<&[u8]> = all.iter().map(|&(s, e)| key(&text[s..e])).collect();
    keys.sort();
    keys.dedup();
    let wanted = *r.pick(&keys);
    let with: Vec<usize> = (0..all.len()).filter(|&i| key(&text[all[i].0..all[i].1]) == wanted).collect();
    let at = *r.pick(&with);
    let (start, end) = all[at];
    let line = text[start..end].to_vec();
    let special = if r.percent(60) { special(r, d, text, &line, at) } else { None };
    match special {
        Some(new) => drop(text.splice(start..end, new)),
        None => general(r, text, start, end, all.get(at + 1).copied()),
    }
}

/// A damage that suits the field: out of range, beyond the count, a name twice, and near misses of the layout.
fn special(r: &mut Rng, d: &Draft, text: &[u8], line: &[u8], at: usize) -> Option<Vec<u8>> {
    let (n, m) = (d.plan.n as usize, d.plan.m as usize);
    let key = String::from_utf8(key(line).to_vec()).ok()?;
    let rest = String::from_utf8(line.get(key.len() + 1..)?.to_vec()).ok()?;
    let number = |r: &mut Rng, limit: usize| match r.below(12) {
        0..=3 => format!("{}", limit + r.below(3)),
        4 => "9999".to_string(),
        5 => format!("{}", r.range(100, 9999)),
        6 => format!("0{}", r.below(10)),
        7 => format!("{}", r.range(10_000, 99_999)),
        8 => String::new(),
        9 => format!("{}{}", r.pick(&["+", "-", " ", "0x"]), r.below(4)),
        10 => format!("{}{}", r.below(4), r.pick(&["a", " ", ".", ",", ",0"])),
        _ => "18446744073709551617".to_string(),
    };
    let mask = |r: &mut Rng, digits: usize, count: usize| match r.below(9) {
        0..=3 if count < 4 * digits => format!("{:0digits$x}", 1u64 << r.range(count, 4 * digits - 1)),
        4 => rest.replace('0', "A"),
        5 => rest[1..].to_string(),
        6 => format!("0{rest}"),
        7 => format!("{}{}", r.pick(&["g", "F", "+", "x", " "]), &rest[1..]),
        8 if count < 4 * digits => format!("{}{}", &format!("{:0digits$x}", 1u64 << count)[1..], r.pick(&["", "g", "00"])),
        _ => format!("0x{}", &rest[2..]),
    };
    let new = match key.as_str() {
        "templates" => match r.below(4) {
            0 => "0".to_string(),
            1 => format!("{}", r.range(1, 64)),
            _ => number(r, 65),
        },
        "identifiers" => match r.below(3) {
            0 => format!("{}", r.range(0, m)),
            _ => number(r, 33),
        },
        "assertions" => match r.below(3) {
            0 => format!("{}", r.range(0, 32)),
            _ => number(r, 33),
        },
        "source" | "sink" | "anc" => number(r, n),
        "form" => {
            let mut end = |limit: usize| if r.percent(50) { format!("{}", r.below(n)) } else { number(r, limit) };
            let (y, z) = (end(n), end(n));
            match r.below(12) {
                0..=2 => format!("go:{y}"),
                3..=4 => format!("either:{y},{z}"),
                5..=6 => format!("both:{y},{z}"),
                7 => format!("either:{y}"),
                8 => format!("go:{y},{z}"),
                9 => format!("both:{y},{z},{y}"),
                10 => (*r.pick(&["end:", "End", "", "go", "go:", "both:,", "stop", "either:0;0", "both: 0,0", "end "])).to_string(),
                _ => format!("{rest}{}", r.pick(&[" ", ",", ":", "0000"])),
            }
        }
        "name" => match r.below(7) {
            0..=2 => {
                // a name that stood earlier, if there is one
                let before = lines(text)[..at].to_vec();
                let earlier: Vec<_> = before.into_iter().filter(|&(s, e)| text[s..e].starts_with(b"name=")).collect();
                if earlier.is_empty() {
                    return None;
                }
                let &(s, e) = r.pick(&earlier);
                String::from_utf8(text[s + 5..e].to_vec()).ok()?
            }
            3 => String::new(),
            4 => "abcdefghijklmnop7"[r.below(2)..].to_string(),
            5 => format!("{rest}{}", r.pick(&["_", "-", "A", " ", "."])),
            _ => rest.to_uppercase(),
        },
        "lab" | "pos" | "neg" | "creates" => mask(r, 8, m),
        "risk" => (*r.pick(&["2", "", "00", "01", "10", "true", " 1", "9", "-1"])).to_string(),
        "kind" => (*r.pick(&["clean", "Secrecy", "secrec", "secrecyy", "prot ", "pro", "prott", "", "PROT", "secrecy=prot"])).to_string(),
        "declass" => match r.below(2) {
            0 => {
                let place = at.checked_sub(5)? / 5;
                let a = d.policy.get(place)?;
                let beside = if r.percent(20) && n < 64 { 1u64 << n } else { 0 };
                let own = *r.pick(&[1u64 << a.source, 1 << a.sink, 1 << a.sink, 1 << a.source, 1 << a.source | 1 << a.sink]);
                format!("{:016x}", a.declass | own | beside)
            }
            _ => mask(r, 16, n),
        },
        _ => return None,
    };
    Some(format!("{key}={new}").into_bytes())
}

fn general(r: &mut Rng, text: &mut Vec<u8>, start: usize, end: usize, next: Option<(usize, usize)>) {
    let line = text[start..end].to_vec();
    let inside = if line.is_empty() { start } else { r.range(start, end - 1) };
    let odd = *r.pick(&[b' ', b'\r', b'\t', 0, b'0', b'x', b'=', 0x80, 0xff, b'A', b':', b',']);
    let equals = line.iter().position(|&b| b == b'=').map(|i| start + i);
    match r.below(18) {
        0 => drop(text.drain(start..=end)),
        1 => drop(text.splice(start..start, [&line[..], b"\n"].concat())),
        2 => drop(text.drain(start..end)),
        3 => text.truncate(start),
        4 => text.truncate(end),
        5 => text.truncate(inside),
        6 => drop(text.remove(end)),
        7 => text.insert(end, odd),
        8 => text.insert(inside, odd),
        9 if !line.is_empty() => drop(text.remove(inside)),
        10 => text[inside] = odd,
        11 => text[start] = text[start].to_ascii_uppercase(),
        12 if equals.is_some() => text[equals.unwrap()] = *r.pick(b": -"),
        13 if equals.is_some() => drop(text.remove(equals.unwrap())),
        14 => text.insert(start, b'\n'),
        15 if next.is_some() => {
            let (s, e) = next.unwrap();
            let swapped = [&text[s..e], b"\n", &line[..]].concat();
            drop(text.splice(start..e, swapped));
        }
        16 => {
            // extra bytes at the text's end
            text.extend_from_slice(*r.pick(&[&b"\n"[..], b" ", b"risk=0\n", b"kind=prot\n", b"\0", b"x\ny\n"]));
        }
        _ => {
            let other = r.pick(&[&b"label"[..], b"Name", b"sourc", b"x", b""]).to_vec();
            drop(text.splice(start..equals.unwrap_or(end), other));
        }
    }
}

/// A plan text and a policy text.
pub type Pair = (Vec<u8>, Vec<u8>);

/// A small pair of texts, nine times in ten with one to three damages; never too long.
pub fn damaged(r: &mut Rng) -> Pair {
    let n = *r.pick(&[1, 2, 2, 2, 3, 3]);
    let m = *r.pick(&[0, 1, 2, 3, 5, 31, 32]);
    let mut d = Draft::random(r, n, m);
    for _ in 0..*r.pick(&[0, 1, 1, 2]) {
        let a = d.random_assertion(r);
        d.policy.push(a);
    }
    let (mut plan, mut policy) = (d.plan_text(), d.policy_text());
    let which = r.below(20);
    for _ in 0..if r.percent(20) { 2 } else { 1 } {
        if (2..11).contains(&which) || which == 19 {
            damage(r, &d, &mut plan);
        }
        if which >= 11 {
            damage(r, &d, &mut policy);
        }
    }
    (plan, policy)
}

/// A pair of the largest counts; one text of it damaged, or none.
pub fn large(r: &mut Rng, text: Option<Text>) -> Pair {
    let mut d = Draft::random(r, 64, 32);
    for _ in 0..32 {
        let a = d.random_assertion(r);
        d.policy.push(a);
    }
    let (mut plan, mut policy) = (d.plan_text(), d.policy_text());
    match text {
        Some(Text::Plan) => damage(r, &d, &mut plan),
        Some(Text::Policy) => damage(r, &d, &mut policy),
        None => {}
    }
    (plan, policy)
}

/// A pair of which this text is too long.
pub fn overlong(r: &mut Rng, text: Text) -> Pair {
    let mut d = Draft::random(r, 1, 1);
    let a = d.random_assertion(r);
    d.policy.push(a);
    let (mut plan, mut policy) = (d.plan_text(), d.policy_text());
    match text {
        Text::Plan => {
            too_long(r, &mut plan);
            policy.truncate(r.below(20));
        }
        Text::Policy => too_long(r, &mut policy),
    }
    (plan, policy)
}

/// More than 16,384 bytes, whatever they are.
fn too_long(r: &mut Rng, text: &mut Vec<u8>) {
    let length = if r.percent(80) { MAX_TEXT + 1 } else { MAX_TEXT + r.range(2, 40) };
    let filling = *r.pick(&[&b"\n"[..], b"x", b"risk=0\n", b"name=a0\nform=end\n", b"\0"]);
    if r.percent(30) {
        text.clear();
    }
    while text.len() < length {
        text.extend_from_slice(filling);
    }
    text.truncate(length);
}

/// Corners of reading, each as one change of the base texts: (which text is changed, from, to).
const CORNERS: [(bool, &str, &str); 40] = [
    (true, "templates=4", "templates=0"),
    (true, "templates=4", "templates=65"),
    (true, "templates=4", "templates=04"),
    (true, "templates=4", "templates=10000"),
    (true, "templates=4", "templates=3"),
    (true, "templates=4", "templates=5"),
    (true, "identifiers=1", "identifiers=0"),
    (true, "identifiers=1", "identifiers=32"),
    (true, "identifiers=1", "identifiers=33"),
    (true, "name=hub", "name="),
    (true, "name=hub", "name=abcdefghijklmnop"),
    (true, "name=hub", "name=abcdefghijklmnopq"),
    (true, "name=split", "name=boot"),
    (true, "name=reader", "name=hub"),
    (true, "name=reader", "name=readers"),
    (true, "form=go:2", "form=go:0"),
    (true, "form=go:2", "form=go:4"),
    (true, "form=go:2", "form=go:9999"),
    (true, "form=go:2", "form=either:9,x"),
    (true, "form=go:2", "form=both:9999,04"),
    (true, "lab=00000001", "lab=00000002"),
    (true, "lab=00000001", "lab=8000000g"),
    (true, "lab=00000001", "lab=0000000A"),
    (true, "risk=1", "risk=2"),
    (true, "risk=1\n", "risk=1"),
    (true, "risk=1\n", "risk=1\n\n"),
    (false, "assertions=1", "assertions=0"),
    (false, "assertions=1", "assertions=2"),
    (false, "assertions=1", "assertions=33"),
    (false, "kind=secrecy", "kind=clean"),
    (false, "kind=secrecy", "kind=prot"),
    (false, "source=3", "source=4"),
    (false, "source=3", "source=0"),
    (false, "sink=3", "sink=1"),
    (false, "sink=3", "sink=00"),
    (false, "0007", "000f"),
    (false, "0007", "0017"),
    (false, "0007", "001F"),
    (false, "0007\n", "0007"),
    (false, "0007\n", "001f\n\n"),
];

/// The pairs of texts of the corners, and those with an empty text.
pub fn corners() -> Vec<Pair> {
    let texts = || (Draft::base().plan_text(), Draft::base().policy_text());
    let mut list: Vec<Pair> = CORNERS
        .iter()
        .map(|&(in_plan, from, to)| {
            let (mut plan, mut policy) = texts();
            let text = if in_plan { &mut plan } else { &mut policy };
            let changed = String::from_utf8_lossy(text).replacen(from, to, 1);
            assert!(changed.as_bytes() != &text[..]);
            *text = changed.into_bytes();
            (plan, policy)
        })
        .collect();
    list.push((texts().0, vec![]));
    list.push((vec![], texts().1));
    list.push((vec![], vec![]));
    list
}

/// Bytes next to those that names, numbers and masks are made of, and some that end a line elsewhere.
const BESIDE: &[u8] = b"/:@AFGZ[`g{ \t\r\0\x80\xff";

/// One line in each way that spoils its layout or nearly does: its last byte, what stands around its field and its key,
/// and the line as a whole.
fn spoil(text: &[u8], start: usize, end: usize) -> Vec<Vec<u8>> {
    let line = &text[start..end];
    let equals = start + key(line).len();
    let with = |from: usize, to: usize, new: &[u8]| [&text[..from], new, &text[to..]].concat();
    let mut list = vec![];
    for b in BESIDE {
        list.push(with(end - 1, end, &[*b]));
        list.push(with(end, end, &[*b]));
    }
    list.push(with(end - 1, end, b""));
    list.push(with(end, end, &line[line.len() - 1..]));
    list.push(with(end, end + 1, b""));
    list.push(with(start, end + 1, b""));
    list.push(with(start, start, &[line, b"\n"].concat()));
    list.push(with(start, start, b"\n"));
    list.push(with(start, start, b" "));
    list.push(with(start, start + 1, &line[..1].to_ascii_uppercase()));
    list.push(with(equals, equals + 1, b":"));
    list.push(with(equals, equals + 1, b""));
    list.push(with(equals + 1, equals + 1, b" "));
    list.push(with(equals + 1, equals + 1, b"0"));
    list
}

/// The base texts with the last line of each kind spoiled, one way at a time.
pub fn sweep() -> Vec<(Vec<u8>, Vec<u8>)> {
    let (plan, policy) = (Draft::base().plan_text(), Draft::base().policy_text());
    let spoiled = |text: &[u8]| -> Vec<Vec<u8>> {
        let all = lines(text);
        let last = |i: usize| (i + 1..all.len()).all(|j| key(&text[all[j].0..all[j].1]) != key(&text[all[i].0..all[i].1]));
        (0..all.len()).filter(|&i| last(i)).flat_map(|i| spoil(text, all[i].0, all[i].1)).collect()
    };
    let of_plan = spoiled(&plan).into_iter().map(|p| (p, policy.clone()));
    let of_policy = spoiled(&policy).into_iter().map(|p| (plan.clone(), p));
    of_plan.chain(of_policy).collect()
}
