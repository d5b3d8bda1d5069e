//! Processor time of single calls on this thread.

#[repr(C)]
struct Timespec {
    seconds: i64,
    nanoseconds: i64,
}

extern "C" {
    fn clock_gettime(clock: i32, time: *mut Timespec) -> i32;
}

const THREAD_CPUTIME: i32 = 3;

fn now() -> f64 {
    let mut time = Timespec { seconds: 0, nanoseconds: 0 };
    unsafe { clock_gettime(THREAD_CPUTIME, &mut time) };
    time.seconds as f64 * 1e3 + time.nanoseconds as f64 / 1e6
}

/// Milliseconds.
pub struct Times {
    pub calls: usize,
    pub median: f64,
    pub longest: f64,
}

/// Calls for half a second, at least 9 and at most 2,000 times.
pub fn measure(mut call: impl FnMut()) -> Times {
    call();
    let begin = now();
    let mut times = Vec::new();
    while times.len() < 9 || times.len() < 2000 && now() - begin < 500.0 {
        let start = now();
        call();
        times.push(now() - start);
    }
    times.sort_by(|a, b| a.partial_cmp(b).unwrap());
    Times { calls: times.len(), median: times[times.len() / 2], longest: times[times.len() - 1] }
}
