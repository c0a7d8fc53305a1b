//! A descent in plain Rust: each gain is computed from four or six distances, or the distances that a look shares are computed once.
//! Distances use the square root of the processor.

use std::collections::VecDeque;
use std::time::Instant;

const SIDE: u64 = 1_000_000;

type Place = (f64, f64);

fn drawn(state: &mut u64) -> u64 {
    *state = state.wrapping_mul(6364136223846793005).wrapping_add(1442695040888963407);
    (*state >> 33) % SIDE
}

struct Plane {
    places: Vec<Place>,
}

impl Plane {
    #[inline(always)]
    fn dist(&self, a: u32, b: u32) -> i64 {
        let (from, to) = (self.places[a as usize - 1], self.places[b as usize - 1]);
        let (dx, dy) = (from.0 - to.0, from.1 - to.1);
        ((dx * dx + dy * dy).sqrt() + 0.5) as i64
    }
}

struct Near {
    width: usize,
    entries: Vec<u32>,
}

impl Near {
    #[inline(always)]
    fn of(&self, c: u32) -> &[u32] {
        let from = (c as usize - 1) * self.width;
        &self.entries[from..from + self.width]
    }

    /// The nearest by (distance, number), over cells of about two cities.
    fn new(plane: &Plane, width: usize) -> Near {
        let n = plane.places.len();
        let rows = (n as f64 / 2.0).sqrt().ceil() as usize;
        let cell = SIDE as usize / rows + 1;
        let mut cells = vec![vec![]; rows * rows];
        for (i, p) in plane.places.iter().enumerate() {
            cells[p.0 as usize / cell * rows + p.1 as usize / cell].push(i as u32 + 1);
        }
        let mut entries = vec![];
        for c in 1..=n as u32 {
            let p = plane.places[c as usize - 1];
            let (column, row) = (p.0 as usize / cell, p.1 as usize / cell);
            for reach in 1.. {
                let mut found = vec![];
                for i in column.saturating_sub(reach)..=(column + reach).min(rows - 1) {
                    for j in row.saturating_sub(reach)..=(row + reach).min(rows - 1) {
                        found.extend(cells[i * rows + j].iter().filter(|b| **b != c).map(|b| (plane.dist(c, *b), *b)));
                    }
                }
                found.sort();
                if found.len() >= width && (found[width - 1].0 < (reach * cell) as i64 || reach > rows) {
                    entries.extend(found[..width].iter().map(|f| f.1));
                    break;
                }
            }
        }
        Near { width, entries }
    }
}

struct Tour {
    order: Vec<u32>,
    place: Vec<u32>,
}

impl Tour {
    fn new(order: &[u32]) -> Tour {
        let mut place = vec![0; order.len()];
        for (k, c) in order.iter().enumerate() {
            place[*c as usize - 1] = k as u32;
        }
        Tour { order: order.to_vec(), place }
    }

    #[inline(always)]
    fn next(&self, c: u32) -> u32 {
        let k = self.place[c as usize - 1] as usize;
        if k + 1 == self.order.len() { self.order[0] } else { self.order[k + 1] }
    }

    #[inline(always)]
    fn prev(&self, c: u32) -> u32 {
        let k = self.place[c as usize - 1] as usize;
        if k == 0 { self.order[self.order.len() - 1] } else { self.order[k - 1] }
    }

    fn shorter_side(&self, b: u32, c: u32, d: u32) -> (usize, usize) {
        let n = self.order.len();
        let (start, end) = (self.place[b as usize - 1] as usize, self.place[c as usize - 1] as usize);
        let inner = if start <= end { end - start + 1 } else { end + n - start + 1 };
        if inner <= n - inner { (start, inner) } else { (self.place[d as usize - 1] as usize, n - inner) }
    }

    fn flip(&mut self, a: u32, b: u32, c: u32, d: u32) {
        let (first, count) = if self.next(a) == b && self.next(c) == d {
            self.shorter_side(b, c, d)
        } else {
            self.shorter_side(c, b, a)
        };
        let n = self.order.len();
        let (mut low, mut high) = (first, if first + count < n { first + count } else { first + count - n });
        for _ in 0..count / 2 {
            high = if high == 0 { n - 1 } else { high - 1 };
            let (x, y) = (self.order[low], self.order[high]);
            self.order[low] = y;
            self.order[high] = x;
            self.place[y as usize - 1] = low as u32;
            self.place[x as usize - 1] = high as u32;
            low = if low + 1 == n { 0 } else { low + 1 };
        }
    }
}

#[derive(Clone, Copy)]
enum Offer {
    Two(u32, u32, u32, u32),
    Or(u32, u32, u32, u32, u32, u32),
}

#[derive(Clone, Copy)]
struct Segment {
    before: u32,
    middle: u32,
    last: u32,
    after: u32,
}

fn segments_of(s: &Tour, x: u32) -> [Segment; 5] {
    let (a1, b1) = (s.next(x), s.prev(x));
    let (a2, b2) = (s.next(a1), s.prev(b1));
    let (a3, b3) = (s.next(a2), s.prev(b2));
    let segment = |before, middle, last, after| Segment { before, middle, last, after };
    [segment(b1, x, x, a1), segment(b1, x, a1, a2), segment(a1, x, b1, b2), segment(b1, a1, a2, a3), segment(a1, b1, b2, b3)]
}

/// Each gain from its distances, computed anew.
fn look(s: &Tour, m: &Plane, tests: &mut u64, near: &Near, x: u32) -> Option<(Offer, i64)> {
    let segments = segments_of(s, x);
    for &y in near.of(x) {
        let beside = [(s.next(x), s.next(y)), (s.prev(x), s.prev(y))];
        for (b, d) in beside {
            *tests += 1;
            let gain = m.dist(x, b) + m.dist(y, d) - m.dist(x, y) - m.dist(b, d);
            if gain > 0 {
                return Some((Offer::Two(x, b, y, d), gain));
            }
        }
        for t in &segments {
            for (_, w) in beside {
                if [x, t.middle, t.last].contains(&y) || [x, t.middle, t.last].contains(&w) {
                    continue;
                }
                *tests += 1;
                let (a, e, b) = (t.before, t.last, t.after);
                let gain = m.dist(a, x) + m.dist(e, b) + m.dist(y, w) - m.dist(a, b) - m.dist(x, y) - m.dist(e, w);
                if gain > 0 {
                    return Some((Offer::Or(a, x, e, b, y, w), gain));
                }
            }
        }
    }
    None
}

/// What the gains of a look share is computed once.
fn sharing_look(s: &Tour, m: &Plane, tests: &mut u64, near: &Near, x: u32) -> Option<(Offer, i64)> {
    let segments = segments_of(s, x);
    let (ax, bx) = (s.next(x), s.prev(x));
    let (dax, dbx) = (m.dist(x, ax), m.dist(x, bx));
    let out = segments.map(|t| m.dist(t.before, x) + m.dist(t.last, t.after) - m.dist(t.before, t.after));
    for &y in near.of(x) {
        let (ay, by) = (s.next(y), s.prev(y));
        let (dxy, day, dby) = (m.dist(x, y), m.dist(y, ay), m.dist(y, by));
        for (b, d, removed) in [(ax, ay, dax + day), (bx, by, dbx + dby)] {
            *tests += 1;
            let gain = removed - dxy - m.dist(b, d);
            if gain > 0 {
                return Some((Offer::Two(x, b, y, d), gain));
            }
        }
        for (t, out) in segments.iter().zip(out) {
            for (w, dw) in [(ay, day), (by, dby)] {
                if [x, t.middle, t.last].contains(&y) || [x, t.middle, t.last].contains(&w) {
                    continue;
                }
                *tests += 1;
                let gain = out + dw - dxy - m.dist(t.last, w);
                if gain > 0 {
                    return Some((Offer::Or(t.before, x, t.last, t.after, y, w), gain));
                }
            }
        }
    }
    None
}

fn move_forward(s: &mut Tour, a: u32, x: u32, e: u32, b: u32, y: u32, w: u32) {
    let ahead = s.next(y) == w;
    let (c, d) = if ahead { (y, w) } else { (w, y) };
    s.flip(a, x, c, d);
    s.flip(a, c, b, e);
    if ahead && x != e {
        s.flip(c, e, x, d);
    }
}

fn make(s: &mut Tour, offer: Offer) -> Vec<u32> {
    match offer {
        Offer::Two(a, b, c, d) => {
            s.flip(a, b, c, d);
            vec![a, b, c, d]
        }
        Offer::Or(a, x, e, b, y, w) => {
            if s.next(a) == x {
                move_forward(s, a, x, e, b, y, w);
            } else {
                move_forward(s, b, e, x, a, w, y);
            }
            vec![x, a, e, b, y, w]
        }
    }
}

/// Moves, looks and what they gained.
fn descend(s: &mut Tour, n: u32, mut look: impl FnMut(&Tour, u32) -> Option<(Offer, i64)>) -> (u64, u64, i64) {
    let mut queue: VecDeque<u32> = (1..=n).collect();
    let mut awake = vec![true; n as usize + 1];
    let (mut moves, mut looks, mut gained) = (0, 0, 0);
    while let Some(x) = queue.pop_front() {
        awake[x as usize] = false;
        looks += 1;
        if let Some((offer, gain)) = look(s, x) {
            for c in make(s, offer) {
                if !awake[c as usize] {
                    awake[c as usize] = true;
                    queue.push_back(c);
                }
            }
            gained += gain;
            moves += 1;
        }
    }
    (moves, looks, gained)
}

fn run(name: &str, plane: &Plane, near: &Near, order: &[u32], look: fn(&Tour, &Plane, &mut u64, &Near, u32) -> Option<(Offer, i64)>) {
    let n = order.len() as u32;
    let mut s = Tour::new(order);
    let mut length: i64 = (0..order.len()).map(|k| plane.dist(order[k], order[(k + 1) % order.len()])).sum();
    for phase in 1..3 {
        let mut tests = 0;
        let begin = Instant::now();
        let (moves, looks, gained) = descend(&mut s, n, |s, x| look(s, plane, &mut tests, near, x));
        let took = begin.elapsed();
        length -= gained;
      println!("{name} {n} {phase} {tests} {} {moves} {looks} {length}", took.as_nanos());
    }
}

/// Whether a call asks for the small run, whose results are those of `tk_calls`'s small run.
fn is_small() -> bool {
    std::env::args().any(|word| word == "small")
}

fn main() {
    let sizes: &[(u32, u64)] = if is_small() { &[(100, 166_667)] } else { &[(1000, 52632), (100_000, 5465)] };
    for &(n, width) in sizes {
        let mut state = 12345;
        let plane = Plane { places: (0..n).map(|_| (drawn(&mut state) as f64, drawn(&mut state) as f64)).collect() };
        let near = Near::new(&plane, 5);
        let mut order: Vec<u32> = (1..=n).collect();
        order.sort_by_key(|c| {
            let (x, y) = plane.places[*c as usize - 1];
            let strip = x as u64 / width;
            (strip, if strip % 2 == 0 { y as u64 } else { SIDE - y as u64 }, *c)
        });
        run("plain", &plane, &near, &order, look);
        run("sharing", &plane, &near, &order, sharing_look);
    }
}
