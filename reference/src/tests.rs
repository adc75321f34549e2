//! Cases a to m of document 01 and its "Also" lines, the corners of READINGS.md, and the promise.

use crate::generate::*;
use crate::history::*;
use crate::judge::*;
use crate::machine::{self, Answer::*};
use crate::near;
use crate::plan::*;
use crate::read::*;
use crate::replay::{replay, Call};
use crate::rng::Rng;
use crate::states::*;

fn base() -> Draft {
    Draft::base()
}

fn verdict(d: &Draft) -> Verdict {
    judge(&d.plan_text(), &d.policy_text())
}

fn broken(rule: u8, first: usize, second: usize, identifier: usize) -> Verdict {
    Verdict::Broken(Broken { rule, first, second, identifier })
}

fn prot(source: usize, sink: usize, anc: usize) -> Assertion {
    Assertion { kind: Kind::Prot, source, sink, anc, declass: 0 }
}

fn case(letter: char) -> Draft {
    let mut d = base();
    match letter {
        'b' => d.policy[0].declass = 6,
        'c' => d.plan.templates[3].lab = 0,
        'd' => d.plan.templates[2].creates = 0,
        'e' => {
            d.plan.templates[2].creates = 0;
            d.plan.templates[0].pos = 1;
            d.plan.templates[1].pos = 1;
        }
        'f' => d.policy.push(prot(3, 3, 0)),
        'g' => d.policy.push(prot(3, 1, 2)),
        _ => {}
    }
    d
}

#[test]
fn cases_a_to_g() {
    assert_eq!(verdict(&case('a')), Verdict::Accepted);
    assert_eq!(verdict(&case('b')), broken(17, 0, 3, 255));
    assert_eq!(verdict(&case('c')), broken(13, 2, 3, 0));
    assert_eq!(
        printed(&verdict(&case('c'))),
        "verdict=broken\nrule=13\nfirst=2\nsecond=3\nidentifier=0\n"
    );
    assert_eq!(verdict(&case('d')), broken(14, 1, 2, 0));
    assert_eq!(verdict(&case('e')), broken(17, 0, 3, 255));
    assert_eq!(verdict(&case('f')), broken(19, 1, 3, 0));
    assert_eq!(verdict(&case('g')), broken(18, 1, 1, 0));
}

#[test]
fn base_text() {
    let text = String::from_utf8(base().plan_text()).unwrap();
    assert!(text.starts_with("templates=4\nidentifiers=1\nname=boot\nform=go:1\nlab=00000000\npos=00000000\nneg=00000001\n"));
    assert_eq!(
        base().policy_text(),
        b"assertions=1\nkind=secrecy\nsource=3\nsink=3\nanc=3\ndeclass=0000000000000007\n"
    );
}

#[test]
fn cases_h_to_m() {
    let d = base();
    let mut s = machine::start(&d.plan_text(), &d.policy_text()).unwrap();
    for serial in [0, 1, 2, 3, 5] {
        assert_eq!(machine::step(&mut s, serial, 0), Done);
    }
    assert_eq!((s.next, s.live), (8, 3));
    assert_eq!(s.serials[..3], [4, 6, 7]);
    assert_eq!(s.templates[..3], [3, 1, 3]);
    assert_eq!(machine::send(&s, 4, 7), Held); // h
    assert_eq!(machine::send(&s, 6, 4), Delivered); // i
    assert_eq!(machine::send(&s, 4, 6), Held); // j
    assert_eq!(machine::raise(&mut s, 4, 0), Refused(29)); // k
    assert_eq!(machine::raise(&mut s, 6, 0), Refused(28)); // l
    // Also
    assert_eq!(machine::step(&mut s, 6, 1), Refused(22));
    assert_eq!(machine::send(&s, 7, 7), Refused(26));
    assert_eq!(machine::raise(&mut s, 7, 1), Refused(27));
    assert_eq!(machine::send(&s, 9, 9), Refused(21));
    // m
    assert_eq!(machine::step(&mut s, 4, 0), Done);
    assert_eq!(machine::step(&mut s, 4, 0), Refused(21));
    assert_eq!((s.next, s.live), (8, 2));
}

#[test]
fn replayed() {
    let d = base();
    let calls = b"step 0 0\nstep 1 0\nstep 2 0\nstep 3 0\nstep 5 0\nsend 4 7\nsend 6 4\n";
    assert_eq!(
        replay(&d.plan_text(), &d.policy_text(), calls),
        "done\ndone\ndone\ndone\ndone\nheld\ndelivered\nnext=8 live=3\n\
         serial=4 template=3 label=00000001 tags=2\n\
         serial=6 template=1 label=00000000 tags=5\n\
         serial=7 template=3 label=00000001 tags=5\n"
    );
    for (calls, out) in [
        (&b"step 0 0\nstep 1  0\n"[..], "done\nunread line=2\n"),
        (b"step 00 0\n", "unread line=1\n"),
        (b"step 0 4294967296\n", "unread line=1\n"),
        (b"step 0 4294967295\nstep 0 0", "refused 22\nunread line=2\n"),
        (&[b'\n'; 65_537], "unread line=0\n"),
    ] {
        assert_eq!(replay(&d.plan_text(), &d.policy_text(), calls), out);
    }
}

fn plan_refusal(text: &str) -> (u8, usize) {
    let r = read_plan(text.as_bytes()).unwrap_err();
    (r.number, r.line)
}

#[test]
fn reading_plans() {
    let good = String::from_utf8(base().plan_text()).unwrap();
    assert_eq!(plan_refusal(""), (2, 1));
    assert_eq!(plan_refusal(&good.replace("templates=4", "templates=0")), (3, 1));
    assert_eq!(plan_refusal(&good.replace("templates=4", "templates=65")), (3, 1));
    assert_eq!(plan_refusal(&good.replace("templates=4", "templates=04")), (2, 1));
    assert_eq!(plan_refusal(&good.replace("templates=4", "templates=10000")), (2, 1));
    assert_eq!(plan_refusal(&good.replace("templates=4", "templates=5")), (2, 31));
    assert_eq!(plan_refusal(&good.replace("templates=4", "templates=3")), (3, 18)); // both:1,3
    assert_eq!(plan_refusal(&good.replace("form=go:1\n", "form=either:9,x\n")), (2, 4));
    assert_eq!(plan_refusal(&good.replace("form=go:1\n", "form=either:9999,0\n")), (3, 4));
    assert_eq!(plan_refusal(&good.replace("name=hub", "name=boot")), (5, 10));
    assert_eq!(plan_refusal(&good.replace("risk=1", "risk=2")), (2, 30));
    assert_eq!(plan_refusal(&good.replace("neg=00000001", "neg=00000002")), (4, 7));
    assert_eq!(plan_refusal(&(good.clone() + "\n")), (2, 31));
    assert_eq!(plan_refusal(&good[..good.len() - 1]), (2, 30));
    assert_eq!(plan_refusal(&"x".repeat(16_384)), (2, 1));
    assert_eq!(plan_refusal(&"x".repeat(16_385)), (1, 0));
}

#[test]
fn the_limits_read() {
    let mut r = Rng::new(5);
    let mut d = Draft::random(&mut r, 64, 32);
    d.plan.templates[7].lab = u32::MAX;
    d.policy = vec![Assertion { kind: Kind::Secrecy, source: 0, sink: 1, anc: 63, declass: !3 }; 32];
    let (plan, _, policy) = read(&d.plan_text(), &d.policy_text()).unwrap();
    assert_eq!(plan, d.plan);
    assert_eq!(policy, d.policy);
}

#[test]
fn reading_policies() {
    let plan = base().plan;
    let good = String::from_utf8(base().policy_text()).unwrap();
    let refusal = |text: &str| {
        let r = read_policy(text.as_bytes(), &plan).unwrap_err();
        (r.number, r.line)
    };
    assert_eq!(refusal(&good.replace("kind=secrecy", "kind=clean")), (2, 2));
    assert_eq!(refusal(&good.replace("source=3", "source=4")), (3, 3));
    assert_eq!(refusal(&good.replace("7\n", "f\n")), (6, 6));
    assert_eq!(refusal(&good.replace("7\n", "18\n")), (2, 6));
    assert_eq!(refusal(&good.replace("07\n", "1f\n")), (4, 6));
    assert_eq!(refusal(&good.replace("secrecy", "prot")), (6, 6));
    assert_eq!(refusal(&good.replace("s=1", "s=0")), (2, 2));
    assert_eq!(refusal(&good.replace("s=1", "s=2")), (2, 7));
    assert_eq!(refusal(&good.replace("s=1", "s=33")), (3, 1));
}

#[test]
fn showing() {
    let shown = |d: &Draft| String::from_utf8(show(&d.plan_text(), &d.policy_text()).to_vec()).unwrap();
    assert_eq!(shown(&case('c')), "split");
    assert_eq!(shown(&case('f')), "kind=prot");
    assert_eq!(locate(&case('a').plan_text(), &case('a').policy_text()), (Text::Plan, 0, 0));
    assert_eq!(show(b"templates=0\nx", b""), b"templates=0");
    assert_eq!(locate(b"templates=4\n", b""), (Text::Plan, 12, 12));
    assert_eq!(locate(b"templates=4\nident", b""), (Text::Plan, 12, 17));
    assert_eq!(locate(&[b'x'; 16_385], b""), (Text::Plan, 16_385, 16_385));
}

#[test]
fn bad_states() {
    let d = base();
    let good = machine::start(&d.plan_text(), &d.policy_text()).unwrap();
    assert!(!machine::bad(&good));
    let edits: [fn(&mut machine::State); 14] = [
        |s| s.plan.n = 0,
        |s| s.plan.n = 65,
        |s| s.plan.m = 33,
        |s| s.live = 129,
        |s| s.next = machine::MAX_NEXT + 1,
        |s| s.next = 0,
        |s| s.templates[0] = 4,
        |s| s.plan.templates[3].form = Form::Go(4),
        |s| s.serials[0] = 1,
        |s| s.tags[0] = 1,
        |s| s.labels[0] = 2,
        |s| s.plan.templates[1].creates = 2,
        |s| (s.live, s.next) = (2, 9),
        |s| (s.live, s.next, s.serials[0], s.serials[1]) = (2, 9, 5, 4),
    ];
    for edit in edits {
        let mut s = good;
        edit(&mut s);
        assert_eq!(machine::step(&mut s, 77, 77), Refused(20));
        assert_eq!(machine::send(&s, 77, 77), Refused(20));
        assert_eq!(machine::raise(&mut s, 77, 77), Refused(20));
        assert_eq!(machine::lower(&mut s, 77, 77), Refused(20));
    }
    let mut s = good;
    (s.live, s.next) = (0, 0);
    s.tags[1] = 9;
    assert!(!machine::bad(&s));
}

#[test]
fn serials_run_out() {
    let mut s = machine::started(base().plan);
    s.next = machine::MAX_NEXT;
    assert_eq!(machine::step(&mut s, 0, 0), Refused(24));
    s.next -= 1;
    assert_eq!(machine::step(&mut s, 0, 0), Done);
    assert_eq!(s.next, machine::MAX_NEXT);
}

/// The checker can say no: plans that the judge does not accept do break the promise.
#[test]
fn breaches_are_found() {
    let run: Vec<Call> = [0, 1, 2, 3, 5].iter().map(|&s| Call::Step(s, 0)).collect();
    let f = case('f');
    let (_, _, breach) = promise(&f.plan, &f.policy, &run, 1);
    assert_eq!(breach, Some((5, Breach::Prot(1, 4, 7))));

    let mut open = case('a'); // nothing labelled: readers of different rounds hear each other
    open.plan.templates[2].lab = 0;
    open.plan.templates[3].lab = 0;
    let mut heard = run.clone();
    heard.push(Call::Send(4, 7));
    let (_, _, breach) = promise(&open.plan, &open.policy, &heard, 1);
    assert_eq!(breach, Some((6, Breach::Secrecy(0, 7, 4))));

    let (_, _, breach) = promise(&case('c').plan, &[], &run[..2], 1);
    assert_eq!(breach, Some((2, Breach::Labels(2, 0))));
}

/// Accepted pairs keep the promise; of the pairs broken at 17, at 18 and at 19, some break it.
#[test]
fn promise_on_random_lists() {
    let mut r = Rng::new(11);
    let (mut kept, mut breached) = (0, [0; 20]);
    while kept < 1_500 {
        let d = Draft::candidate(&mut r);
        let broken = first_broken(&d.plan, &d.policy);
        let rule = broken.map_or(0, |b| b.rule);
        if rule != 0 && rule < 17 {
            continue;
        }
        let calls = calls(&mut r, &d.plan, 60, Style::Normal);
        let (_, _, breach) = promise(&d.plan, &d.policy, &calls, 10);
        match broken {
            None => {
                assert_eq!(breach, None);
                kept += 1;
            }
            Some(b) => breached[b.rule as usize] += breach.is_some() as usize,
        }
    }
    assert!(breached[17] > 0 && breached[18] > 0 && breached[19] > 0, "{breached:?}");
}

#[test]
fn by_value_is_the_same() {
    let mut r = Rng::new(3);
    let d = Draft::base();
    let (mut one, mut two) = (machine::started(d.plan), machine::started(d.plan));
    for call in calls(&mut r, &d.plan, 300, Style::Normal) {
        let answer = call.run(&mut one);
        let (s, other) = match call {
            Call::Step(a, b) => machine::step_by_value(two, a, b),
            Call::Send(a, b) => machine::send_by_value(two, a, b),
            Call::Raise(a, b) => machine::raise_by_value(two, a, b),
            Call::Lower(a, b) => machine::lower_by_value(two, a, b),
        };
        two = s;
        assert_eq!(answer, other);
        assert!(one.same(&two));
    }
}

/// near.rs repeats rules 17 to 19 with one mistake each: a mistake of prot leaves secrecy as it is and the reverse.
#[test]
fn near_misses_are_near() {
    let mut r = Rng::new(8);
    for _ in 0..400 {
        let d = Draft::random(&mut r, 5, 2);
        for _ in 0..20 {
            let a = d.random_assertion(&mut r);
            let elsewhere = match a.kind {
                Kind::Secrecy => near::Mistake::NotInterleaved,
                Kind::Prot => near::Mistake::PosSinkForgotten,
            };
            assert_eq!(near::assertion(&d.plan, 0, &a, elsewhere), assertion(&d.plan, 0, &a));
        }
    }
}

#[test]
fn hand_made_states() {
    let mut r = Rng::new(4);
    let (mut seen, mut ways) = ([0; 30], [0; WAYS.len()]);
    for _ in 0..4_000 {
        let d = Draft::candidate(&mut r);
        let mut s = state(&mut r, &d.plan);
        assert!(!machine::bad(&s));
        for _ in 0..5 {
            let before = s;
            let call = any_call(&mut r, &s);
            if let Refused(number) = call.run(&mut s) {
                seen[number as usize] += 1;
                assert!(s.same(&before));
            }
            assert!(!machine::bad(&s));
        }
        let call = any_call(&mut r, &s);
        ways[spoil(&mut r, &mut s)] += 1;
        assert_eq!(call.run(&mut s), Refused(20));
    }
    assert!(ways.iter().all(|&count| count > 20), "{ways:?}");
    assert!(seen[20] == 0 && seen[21..].iter().all(|&count| count > 20), "{seen:?}");
}

/// A Declass process learns nothing, neither by delivery nor from its parent; it knows itself.
#[test]
fn declass_learns_nothing() {
    let d = Draft::gate();
    assert_eq!(verdict(&d), Verdict::Accepted);
    // maker 1, hearer 2; speaker 3, gate 4; gate 4 hears 3, drops its label and tells 2; then 5 gate, 6 wash, 7 hearer
    let list = [
        Call::Step(0, 0), Call::Step(1, 0), Call::Send(3, 4), Call::Step(4, 0), Call::Send(3, 5),
        Call::Lower(5, 0), Call::Send(5, 2), Call::Step(6, 0),
    ];
    let (answers, _, breach) = promise(&d.plan, &d.policy, &list, 1);
    assert_eq!(answers, [Done, Done, Delivered, Done, Delivered, Done, Delivered, Done]);
    assert_eq!(breach, None);
    let mut h = History::new(&d.plan, &d.policy);
    list.iter().zip(answers).for_each(|(&call, answer)| h.record(call, answer));
    let known = |serial: usize| h.knows[0][serial].iter().copied().collect::<Vec<_>>();
    assert_eq!(known(3), [1, 3]); // its parent, a Declass, knew itself and not serial 0
    assert_eq!((known(4), known(5), known(6)), (vec![4], vec![5], vec![6]));
    assert_eq!(known(7), [6, 7]);
}
