//! CPU time of this process and of the commands it ran. Wall time would count other work on the machine.

#[repr(C)]
struct Timespec {
    seconds: i64,
    nanoseconds: i64,
}

/// The first two fields of struct rusage, user and system time, and room for the other fourteen.
#[repr(C)]
struct Usage {
    times: [i64; 4],
    rest: [i64; 14],
}

const CLOCK_PROCESS_CPUTIME_ID: i32 = 2;
const RUSAGE_CHILDREN: i32 = -1;

extern "C" {
    fn clock_gettime(clock: i32, time: *mut Timespec) -> i32;
    fn getrusage(who: i32, usage: *mut Usage) -> i32;
}

/// The processor's name as the kernel gives it.
pub fn model() -> String {
    let text = std::fs::read_to_string("/proc/cpuinfo").unwrap_or_default();
    let named = text.lines().find_map(|line| {
        let (key, value) = line.split_once(':')?;
        (key.trim() == "model name").then(|| value.trim().to_string())
    });
    named.unwrap_or_else(|| "an unnamed processor".to_string())
}

/// CPU time that this process used so far, in seconds.
pub fn own() -> f64 {
    let mut time = Timespec {
        seconds: 0,
        nanoseconds: 0,
    };
    // SAFETY: the pointer points to a local laid out as struct timespec of 64-bit Linux.
    let failed = unsafe { clock_gettime(CLOCK_PROCESS_CPUTIME_ID, &mut time) };
    assert_eq!(failed, 0, "clock_gettime");
    time.seconds as f64 + time.nanoseconds as f64 * 1e-9
}

/// CPU time, user and system, of the commands that ended so far, in seconds.
pub fn of_commands() -> f64 {
    let mut usage = Usage {
        times: [0; 4],
        rest: [0; 14],
    };
    // SAFETY: the pointer points to a local laid out as struct rusage of 64-bit Linux.
    let failed = unsafe { getrusage(RUSAGE_CHILDREN, &mut usage) };
    assert_eq!(failed, 0, "getrusage");
    let [user, user_micro, system, system_micro] = usage.times;
    (user + system) as f64 + (user_micro + system_micro) as f64 * 1e-6
}
