//! The proved label monitor and plan judge, over the static library that `tools/build staticlib embed` writes.
//!
//! [`judge`], [`locate`] and [`show`] work on the two texts; [`Monitor::start`] gives a box, on which [`Monitor::step`],
//! [`Monitor::send`], [`Monitor::raise`] and [`Monitor::lower`] are the calls. No value makes a call go wrong: each is
//! proved for any memory whatever, so that a [`Monitor`] may also be filled by hand.

pub mod sys;

/// Which of the two texts.
#[derive(Clone, Copy, Debug, PartialEq, Eq)]
pub enum Text {
    Plan,
    Policy,
}

/// The judge's answer.
#[derive(Clone, Copy, Debug, PartialEq, Eq)]
pub enum Verdict {
    Accepted,
    /// The first broken rule, 11 to 19, with its figures.
    Broken {
        rule: u32,
        first: u32,
        second: u32,
        identifier: u32,
    },
    /// A text that does not read: the refusal's number, 1 to 6, and the line, from 1; 0 for a text that is too long.
    Unread {
        text: Text,
        number: u32,
        line: u32,
    },
}

impl Verdict {
    /// The five words of the C interface.
    pub fn from_words(words: [u32; 5]) -> Verdict {
        let [kind, a, b, c, d] = words;
        match kind {
            0 => Verdict::Accepted,
            1 => Verdict::Broken {
                rule: a,
                first: b,
                second: c,
                identifier: d,
            },
            _ => Verdict::Unread {
                text: text_of(a as usize),
                number: b,
                line: c,
            },
        }
    }
}

fn text_of(number: usize) -> Text {
    if number == 0 {
        Text::Plan
    } else {
        Text::Policy
    }
}

/// The bytes from `start` to `end` of a text.
#[derive(Clone, Copy, Debug, PartialEq, Eq)]
pub struct Part {
    pub text: Text,
    pub start: usize,
    pub end: usize,
}

/// A call's answer.
#[derive(Clone, Copy, Debug, PartialEq, Eq)]
pub enum Answer {
    /// A step, a raise or a lower that was accepted.
    Done,
    Delivered,
    /// The message may not pass, and is lost.
    Held,
    /// Refused with that number, 20 to 29; the box is as it was.
    Refused(u8),
}

impl Answer {
    /// The code of the C interface: 0 done, 1 delivered, 2 held, else a refusal's number.
    pub fn from_code(code: u8) -> Answer {
        match code {
            0 => Answer::Done,
            1 => Answer::Delivered,
            2 => Answer::Held,
            n => Answer::Refused(n),
        }
    }

    pub fn code(self) -> u8 {
        match self {
            Answer::Done => 0,
            Answer::Delivered => 1,
            Answer::Held => 2,
            Answer::Refused(n) => n,
        }
    }
}

/// A call.
#[derive(Clone, Copy, Debug, PartialEq, Eq)]
pub enum Call {
    Step { serial: u32, branch: u32 },
    Send { from: u32, to: u32 },
    Raise { serial: u32, identifier: u32 },
    Lower { serial: u32, identifier: u32 },
}

impl Call {
    /// The three words of the C interface.
    pub fn words(self) -> [u32; 3] {
        match self {
            Call::Step { serial, branch } => [0, serial, branch],
            Call::Send { from, to } => [1, from, to],
            Call::Raise { serial, identifier } => [2, serial, identifier],
            Call::Lower { serial, identifier } => [3, serial, identifier],
        }
    }
}

/// A list of calls as words.
pub fn words_of(calls: &[Call]) -> Vec<u32> {
    calls.iter().flat_map(|call| call.words()).collect()
}

/// Calls a function of the C interface on the two texts, then its other arguments.
macro_rules! on_texts {
    ($function:ident, $plan:ident, $policy:ident, $($argument:expr),* $(,)?) => {
        sys::$function(
            $plan.as_ptr(),
            $plan.len(),
            $policy.as_ptr(),
            $policy.len(),
            $($argument),*
        )
    };
}

/// Calls a function of the C interface on a box that the caller may write: on its row, the fields of its state, then the
/// other arguments.
macro_rules! on_box {
    ($function:ident, $box:ident, $($argument:expr),* $(,)?) => {
        sys::$function(
            &$box.row,
            &mut $box.place,
            &mut $box.serials,
            &mut $box.templates,
            &mut $box.labels,
            &mut $box.tags,
            $($argument),*
        )
    };
}

/// Judges the two texts.
pub fn judge(plan: &[u8], policy: &[u8]) -> Verdict {
    let mut words = [0; 5];
    // SAFETY: the texts are lent for the call, and `words` is apart from them.
    unsafe { on_texts!(monitor_judge, plan, policy, &mut words) };
    Verdict::from_words(words)
}

/// Judges the two texts; where the part lies that the verdict shows.
pub fn locate(plan: &[u8], policy: &[u8]) -> Part {
    let mut words = [0; 3];
    // SAFETY: as in `judge`.
    unsafe { on_texts!(monitor_locate, plan, policy, &mut words) };
    Part {
        text: text_of(words[0]),
        start: words[1],
        end: words[2],
    }
}

/// Judges the two texts; the part that the verdict shows, as a part of the text itself. Empty it lies where [`locate`] says.
pub fn show<'a>(plan: &'a [u8], policy: &'a [u8]) -> &'a [u8] {
    let part = locate(plan, policy);
    let text = match part.text {
        Text::Plan => plan,
        Text::Policy => policy,
    };
    &text[part.start..part.end]
}

/// Judges the two texts, starts the box and runs the words of calls through it, three to a call. The answers go to the
/// row, as many as it has places for; the number of calls played is handed back, 0 where the verdict is not accepted.
pub fn replay_into(
    plan: &[u8],
    policy: &[u8],
    calls: &[u32],
    answers: &mut [u8],
) -> (Verdict, usize) {
    let mut words = [0; 5];
    // SAFETY: as in `judge`; `answers` is lent alone, and no more than its length is written.
    let played = unsafe {
        on_texts!(
            monitor_replay,
            plan,
            policy,
            calls.as_ptr(),
            calls.len(),
            answers.as_mut_ptr(),
            answers.len(),
            &mut words,
        )
    };
    (Verdict::from_words(words), played)
}

/// The same over a list of calls.
pub fn replay(plan: &[u8], policy: &[u8], calls: &[Call]) -> (Verdict, Vec<Answer>) {
    let mut codes = vec![0; calls.len()];
    let (verdict, played) = replay_into(plan, policy, &words_of(calls), &mut codes);
    (verdict, answers_of(&codes[..played]))
}

/// A box: the plan as a row of words, and the memory of its live processes (include/monitor.h has the layout).
///
/// The fields are public, since any words whatever may stand there: a box that is not well formed answers 20.
#[derive(Clone, Debug, PartialEq, Eq)]
pub struct Monitor {
    pub row: [u32; sys::ROW_WORDS],
    /// The next serial, and how many processes live.
    pub place: [u32; 2],
    pub serials: [u32; 128],
    pub templates: [u32; 128],
    pub labels: [u32; 128],
    /// Tag i of the process at place p stands at p * M + i.
    pub tags: [u32; 4096],
}

impl Monitor {
    /// All words 0: every call on it is answered 20.
    pub fn blank() -> Box<Monitor> {
        Box::new(Monitor {
            row: [0; sys::ROW_WORDS],
            place: [0; 2],
            serials: [0; 128],
            templates: [0; 128],
            labels: [0; 128],
            tags: [0; 4096],
        })
    }

    /// Judges the two texts and starts the box; where the verdict is not accepted the box is blank.
    pub fn start(plan: &[u8], policy: &[u8]) -> (Verdict, Box<Monitor>) {
        let mut words = [0; 5];
        let mut m = Monitor::blank();
        // SAFETY: the texts are lent for the call; the arrays are fields of one box, apart from each other.
        unsafe {
            on_texts!(
                monitor_start,
                plan,
                policy,
                &mut words,
                &mut m.row,
                &mut m.place,
                &mut m.serials,
                &mut m.templates,
                &mut m.labels,
                &mut m.tags,
            )
        };
        (Verdict::from_words(words), m)
    }

    /// One call.
    pub fn call(&mut self, call: Call) -> Answer {
        let [kind, x, y] = call.words();
        // SAFETY: the arrays are fields of one box, apart from each other.
        answer(unsafe { on_box!(monitor_call, self, kind, x, y) })
    }

    /// The process of that serial goes, and its children come.
    pub fn step(&mut self, serial: u32, branch: u32) -> Answer {
        self.call(Call::Step { serial, branch })
    }

    /// Whether a message may pass. The box is left as it was.
    pub fn send(&mut self, from: u32, to: u32) -> Answer {
        self.call(Call::Send { from, to })
    }

    /// The process's label has that identifier from now on.
    pub fn raise(&mut self, serial: u32, identifier: u32) -> Answer {
        self.call(Call::Raise { serial, identifier })
    }

    /// The process's label lacks that identifier from now on.
    pub fn lower(&mut self, serial: u32, identifier: u32) -> Answer {
        self.call(Call::Lower { serial, identifier })
    }

    /// Runs the words of calls, three to a call, and writes one answer's code to a byte; plays as many calls as there are
    /// words and places for, and hands back that number.
    pub fn run_into(&mut self, calls: &[u32], answers: &mut [u8]) -> usize {
        // SAFETY: as in `call`; `answers` is lent alone, and no more than its length is written.
        unsafe {
            on_box!(
                monitor_run,
                self,
                calls.as_ptr(),
                calls.len(),
                answers.as_mut_ptr(),
                answers.len(),
            )
        }
    }

    /// The same over a list of calls.
    pub fn run(&mut self, calls: &[Call]) -> Vec<Answer> {
        let mut codes = vec![0; calls.len()];
        let played = self.run_into(&words_of(calls), &mut codes);
        answers_of(&codes[..played])
    }

    /// The serials that live, rising; as many as the arrays have places for.
    pub fn live(&self) -> &[u32] {
        &self.serials[..(self.place[1] as usize).min(128)]
    }
}

fn answers_of(codes: &[u8]) -> Vec<Answer> {
    codes.iter().map(|&code| Answer::from_code(code)).collect()
}

// Every code that the library answers is below 256.
fn answer(code: u32) -> Answer {
    Answer::from_code(code as u8)
}
