//! The store of the search's tour: an array, or with `--cfg segments` an array that is divided into segments. This file contains what the
//! two have in common.

use crate::tour::Offer;

#[cfg(segments)]
pub use crate::segments::Tour as Store;
#[cfg(not(segments))]
pub use crate::tour::Tour as Store;

/// Makes moves by flips, and where it can by shifts.
pub trait Moves {
    fn after(&self, c: u32) -> u32;

    /// Replaces the steps a-b and c-d by a-c and b-d.
    fn replace(&mut self, a: u32, b: u32, c: u32, d: u32);

    /// Does what three flips do, where it may and where these only shift the segment from x to e; else it does nothing.
    fn shift_past(&mut self, x: u32, e: u32, b: u32, c: u32, d: u32, ahead: bool) -> bool;

    /// Makes the move of an offer, and returns the number of flips that it consists of.
    fn make(&mut self, offer: Offer) -> u64 {
        match offer {
            Offer::Two(a, b, c, d) => {
                self.replace(a, b, c, d);
                1
            }
            Offer::Or(a, x, e, b, y, w) if self.after(a) == x => self.move_forward(a, x, e, b, y, w),
            Offer::Or(a, x, e, b, y, w) => self.move_forward(b, e, x, a, w, y),
        }
    }

    /// Moves a segment that runs forward from x to e.
    fn move_forward(&mut self, a: u32, x: u32, e: u32, b: u32, y: u32, w: u32) -> u64 {
        let ahead = self.after(y) == w;
        let (c, d) = if ahead { (y, w) } else { (w, y) };
        let turned = ahead && x != e;
        if !self.shift_past(x, e, b, c, d, ahead) {
            self.replace(a, x, c, d);
            self.replace(a, c, b, e);
            if turned {
                self.replace(c, e, x, d);
            }
        }
        2 + turned as u64
    }
}

/// Moves a few cities from one end of a range to the other, and turns them round.
pub fn shift_cities(order: &mut [u32], first: usize, count: usize, cities: usize, to_right: bool, turned: bool) {
    let end = first + count;
    let (from, to) = if to_right { (first, end - cities) } else { (end - cities, first) };
    let mut moved = [0; 3];
    moved[..cities].copy_from_slice(&order[from..from + cities]);
    if turned {
        moved[..cities].reverse();
    }
    if to_right {
        order.copy_within(first + cities..end, first);
    } else {
        order.copy_within(first..end - cities, first + cities);
    }
    order[to..to + cities].copy_from_slice(&moved[..cities]);
}

/// Tells the cities of a range where they stand.
#[inline(always)]
pub fn renumber(order: &[u32], place: &mut [u32], from: usize, to: usize) {
    for (k, c) in (from..to).zip(&order[from..to]) {
        // SAFETY: cities are below the length of `place`.
        unsafe { *place.get_unchecked_mut(*c as usize) = k as u32 };
    }
}
