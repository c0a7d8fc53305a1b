//! Near lists and nearest-neighbour tours by a k-d tree in plain Rust (J. L. Bentley, 1975).
use std::time::Instant;

const SCALE: i64 = 1_000_000_000;
const LEAF: usize = 8;

#[derive(Clone, Copy)]
struct Place {
    x: i64,
    y: i64,
    city: u32,
}

/// What is seen of a city: its distance and number.
type Seen = (i64, u32);

/// A part: its cut (none in a leaf), and the least number and the count of its cities.
#[derive(Clone, Copy)]
struct Part {
    cut: Cut,
    low: i64,
    high: i64,
    least: u32,
    count: u32,
}

#[derive(Clone, Copy, PartialEq)]
enum Cut {
    None,
    X,
    Y,
}

/// Places in the order of a tree. The children of part i are the parts 2i + 1 and 2i + 2.
struct Tree {
    places: Vec<Place>,
    parts: Vec<Part>,
    unit: i64,
}

impl Tree {
    fn plant(places: Vec<Place>, unit: i64) -> Tree {
        let mut tree = Tree { places, parts: Vec::new(), unit };
        tree.cut(0, 0, tree.places.len());
        tree
    }

    fn cut(&mut self, i: usize, from: usize, to: usize) {
        let empty = Part { cut: Cut::None, low: 0, high: 0, least: u32::MAX, count: 0 };
        if self.parts.len() <= i {
            self.parts.resize(i + 1, empty);
        }
        let row = &mut self.places[from..to];
        let least = row.iter().map(|p| p.city).min().unwrap();
        let count = row.len() as u32;
        self.parts[i] = Part { least, count, ..empty };
        if row.len() <= LEAF {
            return;
        }
        let (mut left, mut right, mut bottom, mut top) = (i64::MAX, i64::MIN, i64::MAX, i64::MIN);
        for p in row.iter() {
            left = left.min(p.x);
            right = right.max(p.x);
            bottom = bottom.min(p.y);
            top = top.max(p.y);
        }
        let middle = row.len() / 2;
        let (cut, low, high);
        if right - left >= top - bottom {
            row.select_nth_unstable_by_key(middle, |p| (p.x, p.city));
            cut = Cut::X;
            low = row[..middle].iter().map(|p| p.x).max().unwrap();
            high = row[middle..].iter().map(|p| p.x).min().unwrap();
        } else {
            row.select_nth_unstable_by_key(middle, |p| (p.y, p.city));
            cut = Cut::Y;
            low = row[..middle].iter().map(|p| p.y).max().unwrap();
            high = row[middle..].iter().map(|p| p.y).min().unwrap();
        }
        self.parts[i] = Part { cut, low, high, least, count };
        self.cut(2 * i + 1, from, from + middle);
        self.cut(2 * i + 2, from + middle, to);
    }

    #[inline(always)]
    fn distance(&self, a: &Place, b: &Place) -> i64 {
        let (dx, dy) = ((a.x - b.x) as f64, (a.y - b.y) as f64);
        let root = (dx * dx + dy * dy).sqrt();
        if self.unit == 1 {
            (root + 0.5) as i64
        } else {
            (root / self.unit as f64 + 0.5) as i64
        }
    }

    /// The least distance at a difference in one coordinate.
    #[inline(always)]
    fn floor(&self, gap: i64) -> i64 {
        if self.unit == 1 { gap } else { (gap + self.unit / 2) / self.unit }
    }

    /// The first of both halves of part i as seen from here, that with the lesser gap first: its index and range.
    #[inline(always)]
    fn halves(&self, i: usize, from: usize, to: usize, here: &Place) -> [(i64, usize, usize, usize); 2] {
        let part = &self.parts[i];
        let middle = (from + to) / 2;
        let at = if part.cut == Cut::X { here.x } else { here.y };
        let lower = (self.floor((at - part.low).max(0)), 2 * i + 1, from, middle);
        let upper = (self.floor((part.high - at).max(0)), 2 * i + 2, middle, to);
        if lower.0 <= upper.0 { [lower, upper] } else { [upper, lower] }
    }

    fn list(&self, i: usize, from: usize, to: usize, here: &Place, k: usize, list: &mut Vec<Seen>) {
        if self.parts[i].cut == Cut::None {
            for p in &self.places[from..to] {
                if p.city == here.city {
                    continue;
                }
                let seen = (self.distance(here, p), p.city);
                if list.len() == k {
                    if seen >= list[k - 1] {
                        continue;
                    }
                    list.pop();
                }
                let at = list.partition_point(|f| *f < seen);
                list.insert(at, seen);
            }
            return;
        }
        for (gap, part, from, to) in self.halves(i, from, to, here) {
            if list.len() < k || (gap, self.parts[part].least) < list[k - 1] {
                self.list(part, from, to, here, k, list);
            }
        }
    }

    fn first(&self, i: usize, from: usize, to: usize, here: &Place, best: &mut Seen) {
        if self.parts[i].cut == Cut::None {
            for p in &self.places[from..from + self.parts[i].count as usize] {
                *best = (*best).min((self.distance(here, p), p.city));
            }
            return;
        }
        for (gap, part, from, to) in self.halves(i, from, to, here) {
            if self.parts[part].count > 0 && (gap, self.parts[part].least) < *best {
                self.first(part, from, to, here, best);
            }
        }
    }

    /// Takes out the place at an index: the places of a leaf that are left stand first.
    fn take(&mut self, at: usize, indices: &mut [usize]) {
        let (mut i, mut from, mut to) = (0, 0, self.places.len());
        loop {
            self.parts[i].count -= 1;
            if self.parts[i].cut == Cut::None {
                break;
            }
            let middle = (from + to) / 2;
            if at < middle {
                (i, to) = (2 * i + 1, middle);
            } else {
                (i, from) = (2 * i + 2, middle);
            }
        }
        let last = from + self.parts[i].count as usize;
        self.places.swap(at, last);
        indices[self.places[at].city as usize - 1] = at;
        indices[self.places[last].city as usize - 1] = last;
    }
}

fn near_lists(places: Vec<Place>, unit: i64, k: usize) -> Vec<u32> {
    let tree = Tree::plant(places, unit);
    let n = tree.places.len();
    let mut entries = vec![0; n * k];
    let mut list = Vec::with_capacity(k + 1);
    for here in &tree.places {
        list.clear();
        tree.list(0, 0, n, here, k, &mut list);
        let row = &mut entries[(here.city as usize - 1) * k..][..k];
        for (entry, seen) in row.iter_mut().zip(&list) {
            *entry = seen.1;
        }
    }
    entries
}

fn nearest_tour(places: Vec<Place>, unit: i64) -> Vec<u32> {
    let mut tree = Tree::plant(places, unit);
    let n = tree.places.len();
    let mut indices = vec![0; n];
    for (at, p) in tree.places.iter().enumerate() {
        indices[p.city as usize - 1] = at;
    }
    let mut cities = vec![1];
    while cities.len() < n {
        let at = indices[cities[cities.len() - 1] as usize - 1];
        let here = tree.places[at];
        tree.take(at, &mut indices);
        let mut best = (i64::MAX, u32::MAX);
        tree.first(0, 0, n, &here, &mut best);
        cities.push(best.1);
    }
    cities
}

/// A place of one of the kinds of input, in units of 10^-9.
fn place(input: &str, i: u32, r: u32, s: u32) -> (i64, i64) {
    let whole = |x: u32, y: u32| (x as i64 * SCALE, y as i64 * SCALE);
    let (x, y) = (r % 1_000_000, s % 1_000_000);
    match input {
        "uniform" => whole(x, y),
        "one_place" => whole(7, 7),
        "lattice" => whole(i % 316, i / 316),
        "axes" if i % 2 == 0 => whole(x, 0),
        "axes" => whole(0, y),
        "columns" => whole(i % 2 * 1_000_000_000, i / 2),
        "clusters" => whole(i % 30 * 377_777 % 1_000_000 + x % 20_000, i % 30 * 611_953 % 1_000_000 + y % 20_000),
        "diagonal" => whole(x, x + y % 10),
        _ => (r as i64 * 465_661, s as i64 * 465_661),
    }
}

fn sample(input: &str, cities: u32) -> Vec<Place> {
    let mut state: u64 = 20250101;
    let mut draw = || {
        state = state.wrapping_mul(6364136223846793005).wrapping_add(1442695040888963407);
        (state >> 33) as u32
    };
    let unit = if input == "decimals" { 1 } else { SCALE };
    (0..cities)
        .map(|i| {
            let (r, s) = (draw(), draw());
            let (x, y) = place(input, i, r, s);
            Place { x: x / unit, y: y / unit, city: i + 1 }
        })
        .collect()
}

fn digest(cities: &[u32]) -> u64 {
    cities.iter().fold(0, |digest: u64, city| digest.wrapping_mul(31).wrapping_add(*city as u64))
}

/// Whether a call asks for the small run, whose results are those of `tk_calls`'s small run.
fn is_small() -> bool {
    std::env::args().any(|word| word == "small")
}

fn main() {
    let (cities, long) = if is_small() { (100, 20) } else { (100_000, 100) };
    for input in ["uniform", "one_place", "lattice", "axes", "columns", "clusters", "diagonal", "decimals"] {
        let unit = if input == "decimals" { SCALE } else { 1 };
        for k in [5, long] {
            let places = sample(input, cities);
            let start = Instant::now();
            let entries = near_lists(places, unit, k);
            println!("{input} near-{k} {} {}", start.elapsed().as_micros(), digest(&entries));
        }
        let places = sample(input, cities);
        let start = Instant::now();
        let tour = nearest_tour(places, unit);
        println!("{input} start {} {}", start.elapsed().as_micros(), digest(&tour));
    }
}
