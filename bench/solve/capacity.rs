//! The capacity of the vehicles on a ring of customers and copies of the depot.

use crate::descent::Rule;
use crate::store::{Moves, Store};
use crate::tour::{Offer, at};

/// The elements below the number of demands are the customers; the others are copies of the depot.
pub struct Capacity<'a> {
    pub demands: &'a [u32],
    pub capacity: u64,
}

/// A path from one element to another.
#[derive(Clone, Copy)]
struct Walk {
    from: u32,
    to: u32,
    forward: bool,
}

impl Walk {
    fn back(self) -> Walk {
        Walk { from: self.to, to: self.from, forward: !self.forward }
    }
}

/// The loads of a path: whether it contains a copy of the depot, and the loads before the first and after the last; without one, both are
/// the whole load.
#[derive(Clone, Copy)]
pub struct Loads {
    parted: bool,
    head: u64,
    tail: u64,
}

impl Capacity<'_> {
    fn is_copy(&self, c: u32) -> bool {
        c as usize >= self.demands.len()
    }

    /// The load of a path before its first copy of the depot, and whether it has one. The walk ends where the load is more than `most`.
    #[inline(always)]
    fn ahead(&self, s: &Store, walk: Walk, most: u64) -> (u64, bool) {
        let (mut load, mut k, n) = (0, s.place_of(walk.from), s.size() as u32);
        loop {
            let c = s.city_at(k);
            if self.is_copy(c) {
                return (load, true);
            }
            load += at(self.demands, c as usize) as u64;
            if load > most || c == walk.to {
                return (load, false);
            }
            k = match walk.forward {
                true => if k + 1 == n { 0 } else { k + 1 },
                false => if k == 0 { n - 1 } else { k - 1 },
            };
        }
    }

    fn completed(&self, s: &Store, walk: Walk, (head, parted): (u64, bool)) -> Loads {
        let tail = if parted { self.ahead(s, walk.back(), u64::MAX).0 } else { head };
        Loads { parted, head, tail }
    }

    /// The loads of the path forward from one element to another.
    pub fn loads(&self, s: &Store, from: u32, to: u32) -> Loads {
        let walk = Walk { from, to, forward: true };
        self.completed(s, walk, self.ahead(s, walk, u64::MAX))
    }

    /// Whether parts that fit also do one after the other, as a ring.
    pub fn fits<const N: usize>(&self, parts: [Loads; N]) -> bool {
        let (mut first, mut load) = (None, 0);
        for part in parts {
            load += part.head;
            if part.parted {
                if first.is_some() && load > self.capacity {
                    return false;
                }
                first = first.or(Some(load));
                load = part.tail;
            }
        }
        first.unwrap_or(0) + load <= self.capacity
    }

    /// Whether the loads of two paths before their first copies of the depot are at most `room` together.
    fn fits_between(&self, s: &Store, room: u64, one: Walk, two: Walk) -> bool {
        let (first, _) = self.ahead(s, one, room);
        first <= room && self.ahead(s, two, room - first).0 <= room - first
    }

    fn allows_two(&self, s: &Store, [a, b, c, d]: [u32; 4]) -> bool {
        let forward = s.next(a) == b;
        let turned = Walk { from: b, to: c, forward };
        let kept = Walk { from: d, to: a, forward };
        self.fits_between(s, self.capacity, kept.back(), turned.back()) && self.fits_between(s, self.capacity, turned, kept)
    }

    /// Whether a segment may be between two other paths, `ahead` and `rest`.
    fn allows_segment(&self, s: &Store, segment: Walk, ahead: Walk, rest: Walk) -> bool {
        let limit = self.capacity;
        let inside = self.ahead(s, segment, u64::MAX);
        if !inside.1 {
            return inside.0 <= limit && self.fits_between(s, limit - inside.0, ahead.back(), rest);
        }
        let behind = self.ahead(s, rest.back(), limit);
        if behind.0 > limit {
            return false;
        }
        let before = self.ahead(s, ahead, limit - behind.0);
        if before.0 > limit - behind.0 {
            return false;
        }
        let end = self.completed(s, rest.back(), behind);
        let turned = Loads { head: end.tail, tail: end.head, ..end };
        self.fits([self.completed(s, ahead, before), self.completed(s, segment, inside), turned])
    }

    /// Whether a segment that runs forward may be moved.
    fn allows_forward(&self, s: &Store, [a, x, e, b, y, w]: [u32; 6]) -> bool {
        let segment = Walk { from: x, to: e, forward: true };
        let (segment, c, d) = if s.next(y) == w { (segment, y, w) } else { (segment.back(), w, y) };
        let ahead = Walk { from: b, to: c, forward: true };
        let rest = Walk { from: d, to: a, forward: true };
        self.allows_segment(s, segment, ahead, rest)
    }
}

impl Rule for &Capacity<'_> {
    fn allows(&self, s: &Store, offer: Offer) -> bool {
        match offer {
            Offer::Two(a, b, c, d) => self.allows_two(s, [a, b, c, d]),
            Offer::Or(a, x, e, b, y, w) if s.after(a) == x => self.allows_forward(s, [a, x, e, b, y, w]),
            Offer::Or(a, x, e, b, y, w) => self.allows_forward(s, [b, e, x, a, w, y]),
        }
    }
}
