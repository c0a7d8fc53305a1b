//! Looks at the cities that are awake, and the moves that they find.
//!
//! There are two ways to look for an offer, with the same result: `look` tests all offers of a candidate at once, and `look_in_order` tests
//! them one after another, as tourkit does.

use crate::metric::{Metric, Number};
use crate::near::{Near, Neighbour};
use crate::store::{Moves, Store};
use crate::tour::{Offer, Sides, at};

/// The waking cities, first in first out, each at most once.
pub struct Waking {
    ring: Vec<u32>,
    first: usize,
    count: usize,
    awake: Vec<bool>,
}

impl Waking {
    pub fn new(n: usize) -> Waking {
        Waking { ring: vec![0; n], first: 0, count: 0, awake: vec![false; n] }
    }

    pub fn wake_all(&mut self, cities: &[u32]) {
        cities.iter().for_each(|c| self.wake(*c));
    }

    #[inline(always)]
    pub fn wake(&mut self, c: u32) {
        if at(&self.awake, c as usize) {
            return;
        }
        self.awake[c as usize] = true;
        let at = self.first + self.count;
        let at = if at >= self.ring.len() { at - self.ring.len() } else { at };
        self.ring[at] = c;
        self.count += 1;
    }

    #[inline(always)]
    fn take(&mut self) -> Option<u32> {
        if self.count == 0 {
            return None;
        }
        let c = self.ring[self.first];
        self.first = if self.first + 1 == self.ring.len() { 0 } else { self.first + 1 };
        self.count -= 1;
        self.awake[c as usize] = false;
        Some(c)
    }
}

#[derive(Clone, Copy, Default)]
pub struct Counts {
    pub moves: u64,
    pub tests: u64,
    pub gained: i64,
    /// The flips that the moves consist of.
    pub flips: u64,
}

/// The segments from x: of one city, of two forward and backward, of three forward and backward.
struct Pieces<L> {
    /// The last city of each.
    lasts: [u32; 5],
    /// What the tour becomes shorter by where it is taken out.
    freed: [L; 5],
}

/// x with the three cities on either side.
struct Around<L> {
    after: [u32; 3],
    before: [u32; 3],
    to_after: L,
    to_before: L,
    place: u32,
}

impl<L: Number> Around<L> {
    #[inline(always)]
    fn new<M: Metric<Length = L>>(s: &Store, metric: &M, x: u32) -> Around<L> {
        let Sides { after, before, place } = s.sides(x);
        Around { after, before, to_after: metric.dist(x, after[0]), to_before: metric.dist(x, before[0]), place }
    }

    #[inline(always)]
    fn pieces<M: Metric<Length = L>>(&self, metric: &M, x: u32) -> Pieces<L> {
        let ([a, a2, a3], [b, b2, b3]) = (self.after, self.before);
        let freed = [
            self.to_before + self.to_after - metric.dist(b, a),
            self.to_before + metric.dist(a, a2) - metric.dist(b, a2),
            self.to_after + metric.dist(b, b2) - metric.dist(a, b2),
            self.to_before + metric.dist(a2, a3) - metric.dist(b, a3),
            self.to_after + metric.dist(b2, b3) - metric.dist(a, b3),
        ];
        Pieces { lasts: [x, a, b, a2, b2], freed }
    }

    /// The offer of x and y with this number in their order.
    fn offer(&self, x: u32, y: u32, ys: [u32; 2], number: u32) -> Offer {
        let ([a, a2, a3], [b, b2, b3]) = (self.after, self.before);
        let w = ys[number as usize % 2];
        match number / 2 {
            0 => Offer::Two(x, [a, b][number as usize], y, w),
            1 => Offer::Or(b, x, x, a, y, w),
            2 => Offer::Or(b, x, a, a2, y, w),
            3 => Offer::Or(a, x, b, b2, y, w),
            4 => Offer::Or(b, x, a2, a3, y, w),
            _ => Offer::Or(a, x, b2, b3, y, w),
        }
    }
}

/// Bits of the offers that exist where y stands so many places after x: two of 2-opt, then for each segment those with the city after y
/// and the one before.
fn existing(places: i32) -> u32 {
    let segments: [&[i32]; 5] = [&[0], &[0, 1], &[0, -1], &[0, 1, 2], &[0, -1, -2]];
    let mut bits = 3;
    for (k, segment) in segments.iter().enumerate() {
        for (side, w) in [places + 1, places - 1].iter().enumerate() {
            if !segment.contains(&places) && !segment.contains(w) {
                bits |= 4 << (2 * k + side);
            }
        }
    }
    bits
}

/// The same for tours so short that a city may stand on both sides of x.
fn existing_by_city(x: u32, around: &[[u32; 3]; 2], y: u32, ys: [u32; 2]) -> u32 {
    let [[a, a2, _], [b, b2, _]] = *around;
    let segments = [[x, x, x], [x, a, a], [x, b, b], [x, a, a2], [x, b, b2]];
    let mut bits = 3;
    for (k, segment) in segments.iter().enumerate() {
        for (side, w) in ys.iter().enumerate() {
            if !segment.contains(&y) && !segment.contains(w) {
                bits |= 4 << (2 * k + side);
            }
        }
    }
    bits
}

/// Which moves may be made.
pub trait Rule {
    /// Whether each move may be made.
    const IS_FREE: bool = false;

    fn allows(&self, s: &Store, offer: Offer) -> bool;
}

/// Each move may be made.
pub struct Free;

impl Rule for Free {
    const IS_FREE: bool = true;

    #[inline(always)]
    fn allows(&self, _: &Store, _: Offer) -> bool {
        true
    }
}

/// What a descent goes by.
pub struct Rules<'a, M, R> {
    rule: R,
    metric: &'a M,
    near: &'a Near,
    /// All cities in the order in which they wake.
    cities: &'a [u32],
    /// The bits of the offers with segments that are short enough.
    offers: u32,
    /// `existing` from -3 places on.
    beside: [u32; 7],
    /// Whether offers are tested one after another.
    in_order: bool,
}

impl<'a, M: Metric, R: Rule> Rules<'a, M, R> {
    /// m is the greatest number of cities of a segment.
    pub fn new(rule: R, metric: &'a M, near: &'a Near, m: u32, cities: &'a [u32], in_order: bool) -> Rules<'a, M, R> {
        let offers = match (metric.size(), m) {
            (5.., 3) => 0xfff,
            (4.., 2..) => 0xff,
            (3.., _) => 0xf,
            _ => 0x3,
        };
        Rules { rule, metric, near, cities, offers, beside: [-3, -2, -1, 0, 1, 2, 3].map(existing), in_order }
    }

    /// The bits of the offers of x and y that exist.
    #[inline(always)]
    fn existing(&self, s: &Store, x: u32, around: &Around<M::Length>, y: u32, ys: [u32; 2], place: u32) -> u32 {
        let n = s.size() as i32;
        let places = s.ahead(around.place, place);
        if n < 8 {
            return self.offers & existing_by_city(x, &[around.after, around.before], y, ys);
        }
        let places = if places > n - 4 {
            places - n
        } else if places < 4 - n {
            places + n
        } else {
            places
        };
        match self.beside.get((places + 3) as usize) {
            Some(bits) => self.offers & bits,
            None => self.offers,
        }
    }

    /// The first offer of x with positive gain that may be made, and the gain.
    #[inline(always)]
    fn look(&self, s: &Store, tests: &mut u64, x: u32) -> Option<(Offer, i64)> {
        let metric = self.metric;
        let around = Around::new(s, metric, x);
        let Pieces { lasts, freed } = around.pieces(metric, x);
        let fan = metric.fan(lasts);
        for &Neighbour { city: y, distance } in self.near.of(x) {
            let (ys, place) = s.beside(y);
            let to_ys = ys.map(|w| metric.dist(y, w));
            let across = M::Length::of(distance);
            let offers = self.existing(s, x, &around, y, ys, place);
            let ends = [around.to_after - across, around.to_before - across];
            let gaining = metric.gaining(&fan, ends, freed.map(|f| f - across), to_ys, ys) & offers;
            let gaining = if R::IS_FREE { gaining } else { self.allowed(s, x, &around, y, ys, gaining) };
            if gaining == 0 {
                *tests += offers.count_ones() as u64;
                continue;
            }
            let number = gaining.trailing_zeros();
            *tests += (offers & ((2 << number) - 1)).count_ones() as u64;
            let (side, k) = (number as usize % 2, number as usize / 2);
            let gain = match number {
                0 | 1 => ends[side] + to_ys[side] - metric.dist(lasts[1 + side], ys[side]),
                _ => freed[k - 1] - across + to_ys[side] - metric.dist(lasts[k - 1], ys[side]),
            };
            return Some((around.offer(x, y, ys, number), gain.whole()));
        }
        None
    }

    /// The bits of these offers from the first one on that may be made.
    fn allowed(&self, s: &Store, x: u32, around: &Around<M::Length>, y: u32, ys: [u32; 2], mut offers: u32) -> u32 {
        while offers != 0 && !self.rule.allows(s, around.offer(x, y, ys, offers.trailing_zeros())) {
            offers &= offers - 1;
        }
        offers
    }

    /// The first offer of x with positive gain that may be made, and the gain: offers are tested one after another, until one gains.
    #[inline(always)]
    fn look_in_order(&self, s: &Store, tests: &mut u64, x: u32) -> Option<(Offer, i64)> {
        let metric = self.metric;
        let around = Around::new(s, metric, x);
        let Pieces { lasts, freed } = around.pieces(metric, x);
        let ([a, a2, _], [b, b2, _]) = (around.after, around.before);
        let segments = [[x, x, x], [x, a, a], [x, b, b], [x, a, a2], [x, b, b2]];
        let count = (self.offers.count_ones() as usize - 2) / 2;
        for &Neighbour { city: y, .. } in self.near.of(x) {
            let ys = [s.next(y), s.prev(y)];
            let to_ys = ys.map(|w| metric.dist(y, w));
            let across = metric.dist(x, y);
            let froms = [around.to_after, around.to_before];
            for side in 0..2 {
                *tests += 1;
                let margin = froms[side] + to_ys[side] - across;
                if metric.is_nearer(lasts[1 + side], ys[side], margin) {
                    let offer = around.offer(x, y, ys, side as u32);
                    if self.rule.allows(s, offer) {
                        return Some((offer, (margin - metric.dist(lasts[1 + side], ys[side])).whole()));
                    }
                }
            }
            for (k, segment) in segments[..count].iter().enumerate() {
                for side in 0..2 {
                    if segment.contains(&y) || segment.contains(&ys[side]) {
                        continue;
                    }
                    *tests += 1;
                    let margin = freed[k] - across + to_ys[side];
                    if metric.is_nearer(lasts[k], ys[side], margin) {
                        let offer = around.offer(x, y, ys, (2 * k + side + 2) as u32);
                        if self.rule.allows(s, offer) {
                            return Some((offer, (margin - metric.dist(lasts[k], ys[side])).whole()));
                        }
                    }
                }
            }
        }
        None
    }

    /// Descends from the waking cities on.
    pub fn descend(&self, s: &mut Store, waking: &mut Waking) -> Counts {
        let mut counts = Counts::default();
        while let Some(x) = waking.take() {
            let found = if self.in_order { self.look_in_order(s, &mut counts.tests, x) } else { self.look(s, &mut counts.tests, x) };
            if let Some((offer, gain)) = found {
                counts.flips += s.make(offer);
                match offer {
                    Offer::Two(a, b, c, d) => [a, b, c, d].iter().for_each(|c| waking.wake(*c)),
                    Offer::Or(a, x, e, b, y, w) => [x, a, e, b, y, w].iter().for_each(|c| waking.wake(*c)),
                }
                counts.gained += gain;
                counts.moves += 1;
            }
        }
        counts
    }

    /// Descends with all cities awake until a pass makes no move.
    pub fn descend_swept(&self, s: &mut Store, waking: &mut Waking) -> Counts {
        let mut sum = Counts::default();
        loop {
            waking.wake_all(self.cities);
            let pass = self.descend(s, waking);
            sum.moves += pass.moves;
            sum.tests += pass.tests;
            sum.gained += pass.gained;
            sum.flips += pass.flips;
            if pass.moves == 0 {
                return sum;
            }
        }
    }
}
