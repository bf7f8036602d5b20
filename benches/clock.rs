// How long steps take, by the clock on the wall: the processor's time of a virtual machine is corrected for what the
// machine lost, and sometimes comes out too short.
use std::time::Instant;

// Short steps are timed in batches of so many seconds, so that reading the clock does not count.
const BATCH: f64 = 20e-6;

fn seconds(step: &mut dyn FnMut(), runs: usize) -> f64 {
    let begun = Instant::now();
    (0..runs).for_each(|_| step());
    begun.elapsed().as_secs_f64() / runs as f64
}

// The least seconds that each of some steps takes. They take turns, for so many seconds and five times at least.
pub fn least<const STEPS: usize>(limit: f64, mut steps: [&mut dyn FnMut(); STEPS]) -> [f64; STEPS] {
    let mut once = |k: usize| {
        steps[k]();
        seconds(steps[k], 1)
    };
    let runs: [usize; STEPS] = std::array::from_fn(|k| (BATCH / once(k).max(1e-9)).ceil() as usize);
    let mut least = [f64::MAX; STEPS];
    let (begun, mut rounds) = (Instant::now(), 0);
    while rounds < 5 || begun.elapsed().as_secs_f64() < limit {
        (0..STEPS).for_each(|k| least[k] = least[k].min(seconds(steps[k], runs[k])));
        rounds += 1;
    }
    least
}
