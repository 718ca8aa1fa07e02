//! Times: contenders in turn, many rounds, medians.

use std::time::Instant;

/// One of the things that are compared.
pub type Contender<'a> = Box<dyn FnMut() + 'a>;

/// So long one contender runs in one round.
const ROUND_NANOSECONDS: f64 = 4e6;

/// The median time of one run of each contender, in nanoseconds. Each round runs all of them, so that
/// a slower moment of the machine meets them all.
pub fn medians<const N: usize>(rounds: usize, mut contenders: [Contender; N]) -> [f64; N] {
    let repeats = contenders.each_mut().map(|contender| {
        contender();
        let once = run(contender, 3);
        (ROUND_NANOSECONDS / once).clamp(1.0, 1e6) as usize
    });
    let mut times: [Vec<f64>; N] = std::array::from_fn(|_| Vec::new());
    for _ in 0..rounds {
        for (at, contender) in contenders.iter_mut().enumerate() {
            times[at].push(run(contender, repeats[at]));
        }
    }
    times.map(|mut times| {
        times.sort_by(f64::total_cmp);
        times[times.len() / 2]
    })
}

/// Nanoseconds of one run, as the mean of so many.
fn run(contender: &mut Contender, repeats: usize) -> f64 {
    let started = Instant::now();
    for _ in 0..repeats {
        contender();
    }
    started.elapsed().as_nanos() as f64 / repeats as f64
}
