//! A tour as an array that is divided into a few segments. Long reversals reverse segments as a whole; short ones within a segment reverse
//! cities in the array.
//!
//! The array has physical positions. Segments are ranges of them; in their sequence, each forwards or backwards, they give the cities at
//! virtual positions. The order of the tour begins at virtual position `off`, goes upwards (or downwards if `down`), and wraps around.

use crate::store::{Moves, renumber, shift_cities};
use crate::tour::{Sides, at};

/// So many segments at most.
const CAP: usize = 250;
const BUCKETS: usize = 512;

/// A reversal of more places, or across segments, turns segments round.
const SHORT: u32 = 3000;

/// With more segments than this after a better result, the array is written anew.
const KEEP: usize = 40;

#[derive(Clone, Copy, Default)]
pub struct Seg {
    lo: u32,
    hi: u32,
    start: u32,
    index: u16,
    next: u16,
    back: bool,
}

impl Seg {
    #[inline(always)]
    fn virtual_of(&self, p: u32) -> u32 {
        if self.back { self.start + (self.hi - 1 - p) } else { self.start + (p - self.lo) }
    }
}

/// How physical places are seen.
struct View {
    segs: Vec<Seg>,
    seq: Vec<u16>,
    table: Vec<u16>,
    off: u32,
    down: bool,
}

impl View {
    fn plain(n: u32, shift: u32) -> View {
        let mut segs = Vec::with_capacity(CAP + 8);
        segs.push(Seg { lo: 0, hi: n, start: 0, index: 0, next: 0, back: false });
        let mut seq = Vec::with_capacity(CAP + 8);
        seq.push(0);
        View { segs, seq, table: vec![0; ((n - 1) >> shift) as usize + 1], off: 0, down: false }
    }

    fn take(&mut self, other: &View) {
        self.segs.clear();
        self.segs.extend_from_slice(&other.segs);
        self.seq.clear();
        self.seq.extend_from_slice(&other.seq);
        self.table.copy_from_slice(&other.table);
        self.off = other.off;
        self.down = other.down;
    }
}

#[derive(Clone, Copy)]
enum Change {
    Reversed { first: u32, count: u32 },
    Shifted { first: u32, count: u32, cities: u8, to_right: bool, turned: bool },
}

pub struct Tour {
    order: Vec<u32>,
    place: Vec<u32>,
    n: u32,
    shift: u32,
    view: View,
    settled: View,
    /// The array at the last settle, where it was rewritten since.
    copy: Option<Vec<u32>>,
    journal: Vec<Change>,
    pub swaps: u64,
    /// Whether a segment of an Or-move is moved by flips alone.
    pub by_flips: bool,
}

/// A city's place: its segment and its physical place.
#[derive(Clone, Copy)]
pub struct Spot {
    id: u32,
    p: u32,
}

impl Tour {
    pub fn new(order: &[u32]) -> Tour {
        let n = order.len() as u32;
        let mut place = vec![0; order.len()];
        for (k, c) in order.iter().enumerate() {
            place[*c as usize] = k as u32;
        }
        let mut shift = 0;
        while (n as usize >> shift) >= BUCKETS {
            shift += 1;
        }
        Tour {
            order: order.to_vec(),
            place,
            n,
            shift,
            view: View::plain(n, shift),
            settled: View::plain(n, shift),
            copy: None,
            journal: vec![],
            swaps: 0,
            by_flips: false,
        }
    }

    pub fn size(&self) -> usize {
        self.n as usize
    }

    #[inline(always)]
    fn seg(&self, id: u32) -> &Seg {
        debug_assert!((id as usize) < self.view.segs.len());
        // SAFETY: a name in the table, the sequence or a segment is one of theirs.
        unsafe { self.view.segs.get_unchecked(id as usize) }
    }

    #[inline(always)]
    fn spot(&self, c: u32) -> Spot {
        let p = at(&self.place, c as usize);
        let mut id = at(&self.view.table, (p >> self.shift) as usize) as u32;
        loop {
            let s = self.seg(id);
            if p < s.hi {
                return Spot { id, p };
            }
            id = s.next as u32;
        }
    }

    /// The spot after this one, or before it, in the virtual order.
    #[inline(always)]
    fn step(&self, at_: Spot, forward: bool) -> Spot {
        let Spot { id, p } = at_;
        let s = self.seg(id);
        if forward != s.back {
            if p + 1 < s.hi {
                return Spot { id, p: p + 1 };
            }
        } else if p > s.lo {
            return Spot { id, p: p - 1 };
        }
        self.cross(id, forward)
    }

    #[inline(never)]
    fn cross(&self, id: u32, forward: bool) -> Spot {
        let k = self.seg(id).index as usize;
        let m = self.view.seq.len();
        let k = if forward { if k + 1 == m { 0 } else { k + 1 } } else if k == 0 { m - 1 } else { k - 1 };
        let id = self.view.seq[k] as u32;
        let t = self.seg(id);
        Spot { id, p: if forward != t.back { t.lo } else { t.hi - 1 } }
    }

    #[inline(always)]
    fn city(&self, s: Spot) -> u32 {
        at(&self.order, s.p as usize)
    }

    #[inline(always)]
    pub fn next(&self, c: u32) -> u32 {
        self.city(self.step(self.spot(c), !self.view.down))
    }

    #[inline(always)]
    pub fn prev(&self, c: u32) -> u32 {
        self.city(self.step(self.spot(c), self.view.down))
    }

    /// The cities beside c, and its virtual place.
    #[inline(always)]
    pub fn beside(&self, c: u32) -> ([u32; 2], u32) {
        let spot = self.spot(c);
        let s = self.seg(spot.id);
        let p = spot.p;
        let v = s.virtual_of(p);
        if p > s.lo && p + 1 < s.hi {
            let (l, r) = (at(&self.order, p as usize - 1), at(&self.order, p as usize + 1));
            return (if s.back != self.view.down { [l, r] } else { [r, l] }, v);
        }
        let (f, b) = (self.step(spot, !self.view.down), self.step(spot, self.view.down));
        ([self.city(f), self.city(b)], v)
    }

    #[inline(always)]
    pub fn sides(&self, c: u32) -> Sides {
        let spot = self.spot(c);
        let s = self.seg(spot.id);
        let p = spot.p;
        let virt = s.virtual_of(p);
        if p >= s.lo + 3 && p + 3 < s.hi {
            // SAFETY: these places are in the segment.
            let o = unsafe { self.order.get_unchecked(p as usize - 3..p as usize + 4) };
            let (a, b) = ([o[4], o[5], o[6]], [o[2], o[1], o[0]]);
            return if s.back != self.view.down { Sides { after: b, before: a, place: virt } } else { Sides { after: a, before: b, place: virt } };
        }
        let three = |forward: bool| {
            let a = self.step(spot, forward);
            let b = self.step(a, forward);
            [a, b, self.step(b, forward)].map(|s| self.city(s))
        };
        Sides { after: three(!self.view.down), before: three(self.view.down), place: virt }
    }

    /// How many places y stands after x, by their virtual places.
    #[inline(always)]
    pub fn ahead(&self, x: u32, y: u32) -> i32 {
        let d = y as i32 - x as i32;
        if self.view.down { -d } else { d }
    }

    #[inline(always)]
    fn virt(&self, c: u32) -> u32 {
        let s = self.spot(c);
        self.seg(s.id).virtual_of(s.p)
    }

    /// How many cities the path has from one city on to another, by their virtual places.
    #[inline(always)]
    fn path_between(&self, from: u32, to: u32) -> u32 {
        let (from, to) = if self.view.down { (to, from) } else { (from, to) };
        if from <= to { to - from + 1 } else { to + self.n - from + 1 }
    }

    fn path(&self, from: u32, to: u32) -> u32 {
        self.path_between(self.virt(from), self.virt(to))
    }

    /// The city at a place of the order.
    pub fn city_at(&self, k: u32) -> u32 {
        let v = if self.view.down { self.view.off + self.n - k } else { self.view.off + k };
        let v = if v >= self.n { v - self.n } else { v };
        let s = self.seg(self.view.seq[self.index_of(v)] as u32);
        let d = v - s.start;
        self.order[if s.back { s.hi - 1 - d } else { s.lo + d } as usize]
    }

    /// The place of a city in the order.
    pub fn place_of(&self, c: u32) -> u32 {
        let (from, to) = if self.view.down { (self.virt(c), self.view.off) } else { (self.view.off, self.virt(c)) };
        if from <= to { to - from } else { to + self.n - from }
    }

    /// The index of the segment that has a virtual place.
    fn index_of(&self, v: u32) -> usize {
        let (mut low, mut size) = (0, self.view.seq.len());
        while size > 1 {
            let half = size / 2;
            let mid = low + half;
            if self.seg(self.view.seq[mid] as u32).start <= v {
                low = mid;
            }
            size -= half;
        }
        low
    }

    /// Replaces the steps a-b and c-d by a-c and b-d.
    pub fn flip(&mut self, a: u32, b: u32, c: u32, d: u32) {
        let (va, vb, vc, vd) = (self.virt(a), self.virt(b), self.virt(c), self.virt(d));
        let ahead = self.path_between(va, vb) == 2;
        let ((f, g), (h, i)) = if ahead { ((vb, vc), (vd, va)) } else { ((vc, vb), (va, vd)) };
        let inner = self.path_between(f, g);
        let (first, last, count) = if inner <= self.n - inner { (f, g, inner) } else { (h, i, self.n - inner) };
        self.swaps += count as u64 / 2;
        let start = if self.view.down { last } else { first };
        self.reverse(start, count);
    }

    /// Reverses virtual places from one on, round the end.
    fn reverse(&mut self, start: u32, count: u32) {
        if count < 2 {
            return;
        }
        let end = start + count;
        if end <= self.n {
            self.reverse_within(start, end);
        } else {
            // the same as to reverse all others and to look at the whole in a mirror
            let (e, f) = (end - self.n, start);
            self.reverse_within(e, f);
            let sum = e + f + self.n - 1 - self.view.off;
            self.view.off = if sum >= 2 * self.n { sum - 2 * self.n } else if sum >= self.n { sum - self.n } else { sum };
            self.view.down = !self.view.down;
        }
    }

    fn reverse_within(&mut self, e: u32, f: u32) {
        let i = self.index_of(e);
        let s = *self.seg(self.view.seq[i] as u32);
        if f <= s.start + (s.hi - s.lo) && f - e <= SHORT {
            let first = if s.back { s.hi - (f - s.start) } else { s.lo + (e - s.start) };
            self.journal.push(Change::Reversed { first, count: f - e });
            self.reverse_array(first, f - e);
            return;
        }
        if self.view.seq.len() + 2 > CAP {
            self.flatten();
            return self.reverse_within(e, f);
        }
        let i = if s.start == e {
            i
        } else {
            self.split(i, e);
            i + 1
        };
        let mut j = if f == self.n { self.view.seq.len() } else { self.index_of(f) };
        if f < self.n && self.seg(self.view.seq[j] as u32).start != f {
            self.split(j, f);
            j += 1;
        }
        let View { segs, seq, .. } = &mut self.view;
        let seq = &mut seq[i..j];
        seq.reverse();
        let mut v = e;
        for (k, id) in seq.iter().enumerate() {
            let s = &mut segs[*id as usize];
            s.start = v;
            s.index = (i + k) as u16;
            s.back = !s.back;
            v += s.hi - s.lo;
        }
    }

    /// Splits the segment of an index at a virtual place within it.
    fn split(&mut self, i: usize, v: u32) {
        let View { segs, seq, table, .. } = &mut self.view;
        let id = seq[i];
        let new = segs.len() as u16;
        let s = &mut segs[id as usize];
        let d = v - s.start;
        let q = if s.back { s.hi - d } else { s.lo + d };
        let (old_hi, back) = (s.hi, s.back);
        let mut t = Seg { lo: q, hi: old_hi, start: v, index: 0, next: s.next, back };
        s.hi = q;
        s.next = new;
        if back {
            t.start = s.start;
            s.start = v;
        }
        segs.push(t);
        let from = (q + (1 << self.shift) - 1) >> self.shift;
        let to = (old_hi + (1 << self.shift) - 1) >> self.shift;
        if from < to {
            table[from as usize..to as usize].fill(new);
        }
        if back {
            seq.insert(i, new);
        } else {
            seq.insert(i + 1, new);
        }
        for (k, id) in seq.iter().enumerate().skip(i) {
            segs[*id as usize].index = k as u16;
        }
    }

    /// The cities by virtual places.
    fn virtual_order(&self) -> Vec<u32> {
        let mut flat = Vec::with_capacity(self.n as usize);
        for id in &self.view.seq {
            let s = self.seg(*id as u32);
            let cities = &self.order[s.lo as usize..s.hi as usize];
            if s.back { flat.extend(cities.iter().rev()) } else { flat.extend_from_slice(cities) }
        }
        flat
    }

    fn one_segment(&mut self) {
        self.view.segs.clear();
        self.view.segs.push(Seg { lo: 0, hi: self.n, start: 0, index: 0, next: 0, back: false });
        self.view.seq.clear();
        self.view.seq.push(0);
        self.view.table.fill(0);
    }

    /// Writes the array anew, so that there is one segment.
    fn flatten(&mut self) {
        let flat = self.virtual_order();
        let old = std::mem::replace(&mut self.order, flat);
        if self.copy.is_none() {
            // the array as it was settled
            let now = std::mem::replace(&mut self.order, old);
            while let Some(change) = self.journal.pop() {
                self.undo(change, false);
            }
            self.copy = Some(std::mem::replace(&mut self.order, now));
        }
        self.journal.clear();
        renumber(&self.order, &mut self.place, 0, self.n as usize);
        self.one_segment();
    }

    fn undo(&mut self, change: Change, places: bool) {
        match change {
            Change::Reversed { first, count } => {
                let (first, end) = (first as usize, (first + count) as usize);
                self.order[first..end].reverse();
                if places {
                    renumber(&self.order, &mut self.place, first, end);
                }
            }
            Change::Shifted { first, count, cities, to_right, turned } => {
                shift_cities(&mut self.order, first as usize, count as usize, cities as usize, !to_right, turned);
                if places {
                    renumber(&self.order, &mut self.place, first as usize, (first + count) as usize);
                }
            }
        }
    }

    #[inline(always)]
    fn reverse_array(&mut self, first: u32, count: u32) {
        let (first, end) = (first as usize, (first + count) as usize);
        self.order[first..end].reverse();
        renumber(&self.order, &mut self.place, first, end);
    }

    pub fn settle(&mut self) {
        self.journal.clear();
        if self.view.seq.len() > 1 {
            self.merge();
            if self.view.seq.len() > KEEP {
                self.order = self.virtual_order();
                renumber(&self.order, &mut self.place, 0, self.n as usize);
                self.one_segment();
            }
        }
        self.copy = None;
        self.settled.take(&self.view);
    }

    /// Joins segments that go on one another.
    fn merge(&mut self) {
        let mut joined: Vec<Seg> = Vec::with_capacity(self.view.seq.len());
        for id in &self.view.seq {
            let t = *self.seg(*id as u32);
            if let Some(s) = joined.last_mut()
                && s.back == t.back
            {
                if !t.back && s.hi == t.lo {
                    s.hi = t.hi;
                    continue;
                }
                if t.back && s.lo == t.hi {
                    s.lo = t.lo;
                    continue;
                }
            }
            joined.push(t);
        }
        if joined.len() == self.view.seq.len() {
            return;
        }
        for (k, s) in joined.iter_mut().enumerate() {
            s.index = k as u16;
        }
        let mut by_lo: Vec<u16> = (0..joined.len() as u16).collect();
        by_lo.sort_unstable_by_key(|k| joined[*k as usize].lo);
        for w in 0..by_lo.len() {
            let id = by_lo[w];
            joined[id as usize].next = if w + 1 < by_lo.len() { by_lo[w + 1] } else { 0 };
            let s = joined[id as usize];
            let from = (s.lo + (1 << self.shift) - 1) >> self.shift;
            let to = (s.hi + (1 << self.shift) - 1) >> self.shift;
            self.view.table[from as usize..to as usize].fill(id);
        }
        self.view.seq.clear();
        self.view.seq.extend(0..joined.len() as u16);
        self.view.segs.clear();
        self.view.segs.extend_from_slice(&joined);
    }

    /// Takes the order of another tour of the same cities, which is settled then.
    pub fn take_order(&mut self, order: &[u32]) {
        *self = Tour { swaps: self.swaps, by_flips: self.by_flips, ..Tour::new(order) };
    }

    pub fn rewind(&mut self) {
        if let Some(copy) = self.copy.take() {
            self.order = copy;
            self.journal.clear();
            renumber(&self.order, &mut self.place, 0, self.n as usize);
        }
        while let Some(change) = self.journal.pop() {
            self.undo(change, true);
        }
        self.view.take(&self.settled);
    }

    /// The cities in their order.
    pub fn cities(&self) -> Vec<u32> {
        let flat = self.virtual_order();
        let (n, off) = (self.n as usize, self.view.off as usize);
        (0..n).map(|k| flat[if self.view.down { (off + n - k) % n } else { (off + k) % n }]).collect()
    }
}

impl Moves for Tour {
    fn after(&self, c: u32) -> u32 {
        self.next(c)
    }

    fn replace(&mut self, a: u32, b: u32, c: u32, d: u32) {
        self.flip(a, b, c, d);
    }

    /// Within a segment.
    fn shift_past(&mut self, x: u32, e: u32, b: u32, c: u32, d: u32, ahead: bool) -> bool {
        if self.by_flips {
            return false;
        }
        let (segment, path) = (self.path(x, e), self.path(b, c));
        let rest = self.n - segment - path;
        let to_right = segment + path <= rest;
        if !to_right && path <= segment + rest {
            return false;
        }
        let (begin, end, passed) = if to_right { (x, c, path) } else { (d, e, rest) };
        let count = segment + passed;
        if count > SHORT {
            return false;
        }
        let (s, t) = (self.spot(begin), self.spot(end));
        if s.id != t.id || s.p.abs_diff(t.p) + 1 != count {
            return false;
        }
        self.swaps += (count / 2 + passed / 2 + if ahead { segment / 2 } else { 0 }) as u64;
        let first = s.p.min(t.p);
        let to_right = to_right != (s.p > t.p);
        self.journal.push(Change::Shifted { first, count, cities: segment as u8, to_right, turned: !ahead });
        shift_cities(&mut self.order, first as usize, count as usize, segment as usize, to_right, !ahead);
        renumber(&self.order, &mut self.place, first as usize, (first + count) as usize);
        true
    }
}
