//! How long the sides of a case take.

use std::time::Duration;

use crate::cases::Case;

/// How long a turn should take at least, in which a short call is made many times.
const STRETCH: Duration = Duration::from_millis(5);

/// The rounds of a case, and those of one of which some turn takes longer than this.
const ROUNDS: u32 = 25;
const FEW_ROUNDS: u32 = 10;
const LONG: Duration = Duration::from_millis(50);

/// The processor time of this thread so far, which other work on the machine disturbs less than the time on the clock.
fn spent() -> Duration {
    #[repr(C)]
    struct Time {
        seconds: i64,
        nanoseconds: i64,
    }
    extern "C" {
        fn clock_gettime(clock: i32, time: *mut Time) -> i32;
    }
    const THREAD: i32 = 3; // Linux: CLOCK_THREAD_CPUTIME_ID
    let mut time = Time { seconds: 0, nanoseconds: 0 };
    // the struct is that of C on 64-bit Linux
    assert_eq!(unsafe { clock_gettime(THREAD, &mut time) }, 0);
    Duration::new(time.seconds as u64, time.nanoseconds as u32)
}

fn timed(run: &mut dyn FnMut(), times: u32) -> Duration {
    let start = spent();
    (0..times).for_each(|_| run());
    spent() - start
}

/// The least time of each side over some rounds, in nanoseconds an input; in a round every side has its turn.
pub fn least(case: &mut Case) -> Vec<f64> {
    // the second run of a side, for the first is made with nothing in the cache
    let once = |run: &mut dyn FnMut()| [1, 1].map(|times| timed(run, times))[1];
    let single: Vec<Duration> = case.sides.iter_mut().map(|side| once(&mut side.run)).collect();
    let rounds = if single.iter().any(|&time| time > LONG) { FEW_ROUNDS } else { ROUNDS };
    let turns = single.iter().map(|time| (STRETCH.as_nanos() / time.as_nanos().max(1)) as u32 + 1);
    let turns: Vec<u32> = turns.collect();
    let mut least = vec![f64::INFINITY; turns.len()];
    for _ in 0..rounds {
        for ((side, &times), least) in case.sides.iter_mut().zip(&turns).zip(&mut least) {
            let calls = f64::from(times) * case.inputs as f64;
            *least = least.min(timed(&mut side.run, times).as_nanos() as f64 / calls);
        }
    }
    least
}
