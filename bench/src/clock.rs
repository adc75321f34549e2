//! Thread CPU time, taken in turns, and medians.

#[repr(C)]
struct Timespec {
    seconds: i64,
    nanoseconds: i64,
}

extern "C" {
    fn clock_gettime(clock: i32, time: *mut Timespec) -> i32;
}

const THREAD_CPU_TIME: i32 = 3;

/// This thread's CPU time in nanoseconds.
fn now() -> f64 {
    let mut t = Timespec { seconds: 0, nanoseconds: 0 };
    unsafe { clock_gettime(THREAD_CPU_TIME, &mut t) };
    t.seconds as f64 * 1e9 + t.nanoseconds as f64
}

/// How long the work takes, and what it gives.
pub fn timed<T>(work: impl FnOnce() -> T) -> (f64, T) {
    let began = now();
    let given = std::hint::black_box(work());
    (now() - began, given)
}

fn median(mut xs: Vec<f64>) -> f64 {
    xs.sort_by(|a, b| a.total_cmp(b));
    xs[xs.len() / 2]
}

/// One variant: runs once; nanoseconds a unit of work, and the checksum of what it did.
pub type Variant<'a> = Box<dyn FnMut() -> (f64, u64) + 'a>;

/// The medians of the variants, which take turns; all checksums must be equal. The first turn is thrown away.
pub fn medians(turns: usize, mut variants: Vec<Variant>) -> Vec<f64> {
    let mut times = vec![vec![]; variants.len()];
    let mut sums = vec![];
    for turn in 0..=turns {
        for (run, times) in variants.iter_mut().zip(&mut times) {
            let (time, sum) = run();
            sums.push(sum);
            if turn > 0 {
                times.push(time);
            }
        }
    }
    assert!(sums.iter().all(|&sum| sum == sums[0]), "the checksums differ: {sums:?}");
    times.into_iter().map(median).collect()
}
