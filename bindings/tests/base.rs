// The base plan of document 01 through the safe wrapper.
use monitor::{judge, locate, replay, show, Answer, Call, Monitor, Part, Text, Verdict};

const PLAN: &[u8] = include_bytes!("../../examples/base/plan.txt");
const PLAN_C: &[u8] = include_bytes!("../../examples/c/plan.txt");
const POLICY: &[u8] = include_bytes!("../../examples/base/policy.txt");
const POLICY_B: &[u8] = include_bytes!("../../examples/b/policy.txt");

const RUN: [Call; 5] = [
    Call::Step {
        serial: 0,
        branch: 0,
    },
    Call::Step {
        serial: 1,
        branch: 0,
    },
    Call::Step {
        serial: 2,
        branch: 0,
    },
    Call::Step {
        serial: 3,
        branch: 0,
    },
    Call::Step {
        serial: 5,
        branch: 0,
    },
];

fn after_the_run() -> Box<Monitor> {
    let (verdict, mut m) = Monitor::start(PLAN, POLICY);
    assert_eq!(verdict, Verdict::Accepted);
    assert_eq!(m.run(&RUN), [Answer::Done; 5]);
    m
}

/// Every call on the box is answered 20, and no word of it changes.
fn refuses_all(mut m: Box<Monitor>) {
    let before = m.clone();
    assert_eq!(m.step(4, 0), Answer::Refused(20));
    assert_eq!(m.send(6, 4), Answer::Refused(20));
    assert_eq!(m.raise(4, 0), Answer::Refused(20));
    assert_eq!(m.lower(4, 0), Answer::Refused(20));
    assert_eq!(m.run(&RUN), [Answer::Refused(20); 5]);
    assert_eq!(m, before);
}

#[test]
fn verdicts() {
    assert_eq!(judge(PLAN, POLICY), Verdict::Accepted);
    assert_eq!(
        judge(PLAN, POLICY_B),
        Verdict::Broken {
            rule: 17,
            first: 0,
            second: 3,
            identifier: 255
        }
    );
    assert_eq!(
        judge(b"", b""),
        Verdict::Unread {
            text: Text::Plan,
            number: 2,
            line: 1
        }
    );
    assert_eq!(
        judge(PLAN, b"assertions=33\n"),
        Verdict::Unread {
            text: Text::Policy,
            number: 3,
            line: 1
        }
    );
}

/// The part shown lies in that text from `start` on, and has these bytes.
fn shows(plan: &[u8], policy: &[u8], text: Text, start: usize, bytes: &[u8]) {
    let end = start + bytes.len();
    assert_eq!(locate(plan, policy), Part { text, start, end });
    let whole = match text {
        Text::Plan => plan,
        Text::Policy => policy,
    };
    let shown = show(plan, policy);
    assert_eq!(shown, bytes);
    assert_eq!(shown.as_ptr() as usize - whole.as_ptr() as usize, start);
}

#[test]
fn parts() {
    let long = vec![b'x'; 16_385];
    let header = b"templates=4\nidentifiers=1\n";
    shows(PLAN, POLICY, Text::Plan, 0, b"");
    shows(PLAN, POLICY_B, Text::Policy, 13, b"kind=secrecy");
    shows(PLAN_C, POLICY, Text::Plan, 196, b"split");
    shows(&long, POLICY, Text::Plan, long.len(), b"");
    shows(PLAN, &long, Text::Policy, long.len(), b"");
    shows(header, POLICY, Text::Plan, header.len(), b"");
    shows(PLAN, b"", Text::Policy, 0, b"");
    shows(PLAN, b"assertions=33\n", Text::Policy, 0, b"assertions=33");
}

#[test]
fn calls_of_case_a() {
    let mut m = after_the_run();
    assert_eq!(m.live(), [4, 6, 7]);
    assert_eq!(m.place, [8, 3]);
    let before = m.clone();
    assert_eq!(m.send(4, 7), Answer::Held);
    assert_eq!(m.send(6, 4), Answer::Delivered);
    assert_eq!(m.send(4, 6), Answer::Held);
    assert_eq!(m.raise(4, 0), Answer::Refused(29));
    assert_eq!(m.raise(6, 0), Answer::Refused(28));
    assert_eq!(m.lower(4, 0), Answer::Refused(29));
    assert_eq!(m.step(6, 1), Answer::Refused(22));
    assert_eq!(m.send(7, 7), Answer::Refused(26));
    assert_eq!(m.raise(7, 1), Answer::Refused(27));
    assert_eq!(m, before);
    assert_eq!(m.step(4, 0), Answer::Done);
    assert_eq!(m.step(4, 0), Answer::Refused(21));
    assert_eq!(m.live(), [6, 7]);
}

#[test]
fn rows_that_mean_no_plan() {
    for (at, word) in [(0, 65), (2, 4), (3, 256), (4, 256), (9, 2)] {
        let mut m = after_the_run();
        m.row[at] = word;
        refuses_all(m);
    }
}

/// A template counts as a whole word: one whose low byte is a template's number is none.
#[test]
fn templates_of_256_and_above() {
    for high in [1 << 8, 1 << 16, 1 << 31, u32::MAX << 8] {
        for place in 0..3 {
            let mut m = after_the_run();
            m.templates[place] |= high;
            refuses_all(m);
        }
    }
    let mut m = after_the_run();
    m.templates[3] = u32::MAX;
    assert_eq!(m.send(6, 4), Answer::Delivered);
}

#[test]
fn not_accepted() {
    let (verdict, mut m) = Monitor::start(PLAN, POLICY_B);
    assert_eq!(
        verdict,
        Verdict::Broken {
            rule: 17,
            first: 0,
            second: 3,
            identifier: 255
        }
    );
    assert_eq!(m, Monitor::blank());
    assert_eq!(m.step(0, 0), Answer::Refused(20));
    let (again, answers) = replay(PLAN, POLICY_B, &RUN);
    assert_eq!(again, verdict);
    assert!(answers.is_empty());
}

#[test]
fn lists() {
    let mut calls = RUN.to_vec();
    calls.extend([
        Call::Send { from: 4, to: 7 },
        Call::Send { from: 6, to: 4 },
        Call::Raise {
            serial: 4,
            identifier: 0,
        },
        Call::Lower {
            serial: 6,
            identifier: 0,
        },
    ]);
    let (verdict, answers) = replay(PLAN, POLICY, &calls);
    assert_eq!(verdict, Verdict::Accepted);
    assert_eq!(
        answers.iter().map(|a| a.code()).collect::<Vec<u8>>(),
        [0, 0, 0, 0, 0, 2, 1, 29, 28]
    );
    let mut m = Monitor::start(PLAN, POLICY).1;
    let mut codes = [0xEE; 4];
    assert_eq!(m.run_into(&monitor::words_of(&calls), &mut codes[..3]), 3);
    assert_eq!(codes, [0, 0, 0, 0xEE]);
    assert_eq!(m.place, [5, 2]);
}
