//! The two orders in which a round's pieces are cut. The nearest is next; of equally near ones the earlier in the list, as
//! printed, or, by the changed order, the one with more points, then the earlier.
use crate::hooks::Hooks;
use crate::planner::Piece;
use crate::switches;
use std::cmp::Ordering;

/// A piece's place in the list as it stands, and its distance.
pub type Place = (usize, f64);

/// The places of all pieces of a list, in order.
pub trait Places: Iterator<Item = Place> + Sized {
    /// The place of the next piece, by the order that the switch says. Counts the choices at which the two orders part.
    fn next_piece(self, pieces: &[Piece], hooks: &mut Hooks) -> Option<Place> {
        let places: Vec<Place> = self.collect();
        let printed = earlier_first(&places);
        let changed = longer_first(&places, |k| pieces[k].pts.len());
        hooks.parted += (printed.map(|place| place.0) != changed.map(|place| place.0)) as usize;
        if switches::get().longer_first { changed } else { printed }
    }
}

impl<I: Iterator<Item = Place>> Places for I {}

/// The next piece as printed.
fn earlier_first(places: &[Place]) -> Option<Place> {
    places.iter().copied().min_by(|a, b| a.1.total_cmp(&b.1))
}

/// The next piece by the changed order, where the k-th piece has `points(k)` points.
fn longer_first(places: &[Place], points: impl Fn(usize) -> usize) -> Option<Place> {
    let more = |a: &Place, b: &Place| more_first(points(a.0), points(b.0));
    places.iter().copied().min_by(|a, b| a.1.total_cmp(&b.1).then_with(|| more(a, b)))
}

/// The order of two equally near pieces by their points. The earlier has `a`: `min_by` keeps it unless it is the greater.
fn more_first(a: usize, b: usize) -> Ordering {
    let how = switches::get();
    match if how.fewer_first { a.cmp(&b) } else { b.cmp(&a) } {
        Ordering::Equal if how.later_first => Ordering::Greater,
        order => order,
    }
}
