//! Times of two sides, taken in turn.

/// The C library's, which every Rust program on Linux links.
#[repr(C)]
struct Timespec {
    seconds: i64,
    nanoseconds: i64,
}

/// Seconds and microseconds in user and in system mode, and 14 numbers that are not looked at.
#[repr(C)]
struct Usage {
    user: [i64; 2],
    system: [i64; 2],
    others: [i64; 14],
}

extern "C" {
    fn clock_gettime(clock: i32, time: *mut Timespec) -> i32;
    fn getrusage(who: i32, usage: *mut Usage) -> i32;
}

const CLOCK_THREAD_CPUTIME_ID: i32 = 3;
const RUSAGE_CHILDREN: i32 = -1;

/// Nanoseconds of processor time of this thread: what other programs take of the processor does not count.
pub fn now() -> f64 {
    let mut t = Timespec {
        seconds: 0,
        nanoseconds: 0,
    };
    // SAFETY: the clock is known, and the time is lent for the call
    let status = unsafe { clock_gettime(CLOCK_THREAD_CPUTIME_ID, &mut t) };
    assert_eq!(status, 0);
    t.seconds as f64 * 1e9 + t.nanoseconds as f64
}

/// Seconds of processor time of the programs that this one has started and that have ended.
pub fn of_children() -> f64 {
    let mut usage = Usage {
        user: [0; 2],
        system: [0; 2],
        others: [0; 14],
    };
    // SAFETY: `Usage` is laid out as the C library's, and is lent for the call
    let status = unsafe { getrusage(RUSAGE_CHILDREN, &mut usage) };
    assert_eq!(status, 0);
    let seconds = |[whole, micro]: [i64; 2]| whole as f64 + micro as f64 / 1e6;
    seconds(usage.user) + seconds(usage.system)
}

#[derive(Clone, Copy)]
pub struct Pace {
    pub rounds: usize,
    /// nanoseconds that one round of one side takes at least
    pub round: f64,
}

fn once(f: &mut dyn FnMut(u32), times: u32) -> f64 {
    let start = now();
    f(times);
    now() - start
}

/// How many times fill a round.
fn fill(f: &mut dyn FnMut(u32), pace: Pace) -> u32 {
    let mut times = 1u32;
    loop {
        let t = once(f, times);
        if t >= pace.round || times >= 1 << 28 {
            return times;
        }
        times = if t * 4.0 < pace.round {
            times * 4
        } else {
            (times as f64 * pace.round / t * 1.05) as u32 + 1
        };
    }
}

fn median(mut v: Vec<f64>) -> f64 {
    v.sort_by(f64::total_cmp);
    v[v.len() / 2]
}

/// Nanoseconds a time of each side, round by round. The sides go in turn, so that other work on the machine, which comes and goes,
/// tells on all.
pub fn rounds<const N: usize>(mut sides: [&mut dyn FnMut(u32); N], pace: Pace) -> Vec<[f64; N]> {
    let times = sides.each_mut().map(|side| fill(side, pace));
    let round = |_| std::array::from_fn(|k| once(sides[k], times[k]) / times[k] as f64);
    (0..pace.rounds).map(round).collect()
}

/// The median over the rounds of what is made of each.
pub fn middle<T>(rounds: &[T], of: impl Fn(&T) -> f64) -> f64 {
    median(rounds.iter().map(of).collect())
}

/// Nanoseconds a time of each side and their ratio: each the median over the rounds, and a ratio is that of one round.
pub fn compare(
    ours: &mut dyn FnMut(u32),
    expert: &mut dyn FnMut(u32),
    pace: Pace,
) -> (f64, f64, f64) {
    let all = rounds([ours, expert], pace);
    (
        middle(&all, |r| r[0]),
        middle(&all, |r| r[1]),
        middle(&all, |r| r[0] / r[1]),
    )
}
