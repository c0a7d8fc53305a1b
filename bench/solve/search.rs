//! Trials: descents from kicks of the best tour (O. Martin, S. W. Otto and E. W. Felten, 1991).

use crate::descent::{Free, Rules, Waking};
use crate::metric::{Metric, Number};
use crate::near::Near;
use crate::params::Params;
use crate::store::Store;
use crate::tour::Tour;
use std::fmt;
use std::ops::RangeInclusive;

/// PCG XSH RR 64/32 (M. E. O'Neill, 2014), as `rand_pcg` seeds it and `rand` draws from it.
pub struct Pcg32 {
    state: u64,
    increment: u64,
}

const MULTIPLIER: u64 = 6364136223846793005;

fn output(state: u64) -> u32 {
    ((((state >> 18) ^ state) >> 27) as u32).rotate_right((state >> 59) as u32)
}

impl Pcg32 {
    pub fn seed_from_u64(seed: u64) -> Pcg32 {
        let mut state = seed;
        let mut word = || {
            state = state.wrapping_mul(MULTIPLIER).wrapping_add(0xA176_54E4_6FBE_17F3);
            output(state) as u64
        };
        let mut wide = || word() | word() << 32;
        let (state, increment) = (wide(), wide() | 1);
        let mut pcg = Pcg32 { state: state.wrapping_add(increment), increment };
        pcg.next();
        pcg
    }

    fn next(&mut self) -> u32 {
        let word = output(self.state);
        self.state = self.state.wrapping_mul(MULTIPLIER).wrapping_add(self.increment);
        word
    }

    /// Canon's method: a second word decides where the first may be too low.
    pub fn random_range(&mut self, range: RangeInclusive<u32>) -> u32 {
        let count = range.end() - range.start() + 1;
        let product = self.next() as u64 * count as u64;
        let (mut high, low) = ((product >> 32) as u32, product as u32);
        if low > count.wrapping_neg() {
            let more = (self.next() as u64 * count as u64 >> 32) as u32;
            high += low.checked_add(more).is_none() as u32;
        }
        range.start() + high
    }
}

#[derive(Default)]
pub struct Totals {
    pub start: i64,
    pub best: i64,
    pub trials: u32,
    pub moves: u64,
    pub tests: u64,
    pub swaps: u64,
}

impl fmt::Display for Totals {
    fn fmt(&self, f: &mut fmt::Formatter) -> fmt::Result {
        write!(f, "start {}, best {}, trials {}, ", self.start, self.best, self.trials)?;
        write!(f, "moves {}, tests {}, swaps {}", self.moves, self.tests, self.swaps)
    }
}

struct Search<'a, M> {
    metric: &'a M,
    rules: Rules<'a, M, Free>,
    sweep: bool,
    tour: Store,
    waking: Waking,
    totals: Totals,
}

impl<M: Metric> Search<'_, M> {
    /// Descends from a length; the result is kept where it is shorter than the best.
    fn descend(&mut self, before: i64) {
        let descend = if self.sweep { Rules::descend_swept } else { Rules::descend };
        let counts = descend(&self.rules, &mut self.tour, &mut self.waking);
        let after = before - counts.gained;
        if after < self.totals.best {
            self.totals.best = after;
            self.tour.settle();
        } else {
            self.tour.rewind();
        }
        self.totals.trials += 1;
        self.totals.moves += counts.moves;
        self.totals.tests += counts.tests;
        self.totals.swaps = self.tour.swaps;
    }

    /// The double bridge: of the four parts that three cuts make, the second and the fourth change places.
    fn kick(&mut self, rng: &mut Pcg32) -> i64 {
        let n = self.tour.size() as u32;
        let p = rng.random_range(1..=n - 3);
        let q = rng.random_range(p + 1..=n - 2);
        let r = rng.random_range(q + 1..=n - 1);
        let ends = [0, p - 1, p, q - 1, q, r - 1, r, n - 1].map(|k| self.tour.city_at(k));
        let [a1, an, b1, bn, c1, cn, d1, dn] = ends;
        self.tour.flip(an, b1, dn, a1);
        self.tour.flip(an, dn, d1, cn);
        self.tour.flip(dn, cn, c1, bn);
        self.tour.flip(cn, bn, b1, a1);
        if !self.sweep {
            ends.iter().for_each(|c| self.waking.wake(*c));
        }
        let dist = |a, b| self.metric.dist(a, b).whole();
        let out = dist(an, b1) + dist(bn, c1) + dist(cn, d1) + dist(dn, a1);
        self.totals.best - out + dist(an, d1) + dist(dn, c1) + dist(cn, b1) + dist(bn, a1)
    }
}

/// The best tour of so many trials from a start, and what they counted. Inside, cities are numbered by an order of them: where that is the
/// start, neighbours on the tour are mostly neighbours in memory.
pub fn search<M: Metric>(
    metric: &M,
    near: &Near,
    params: &Params,
    start: &[u32],
    order: &[u32],
    trials: u32,
    seed: u64,
) -> (Vec<u32>, Totals) {
    let length = metric.length(start);
    let places = Tour::new(order).place;
    let metric = &metric.among(order);
    let near = &near.renumbered(order, &places);
    let start: Vec<u32> = start.iter().map(|c| places[*c as usize]).collect();
    let mut search = Search {
        metric,
        rules: Rules::new(Free, metric, near, params.or_segment, &places, params.same_method),
        sweep: params.sweep,
        tour: Store::new(&start),
        waking: Waking::new(start.len()),
        totals: Totals { start: length, best: length, ..Totals::default() },
    };
    search.tour.by_flips = params.same_method;
    let mut rng = Pcg32::seed_from_u64(seed);
    search.waking.wake_all(&places);
    search.descend(length);
    for _ in 1..trials {
        let before = search.kick(&mut rng);
        search.descend(before);
    }
    (search.tour.cities().iter().map(|c| order[*c as usize]).collect(), search.totals)
}
