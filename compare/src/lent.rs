//! Lists that are lent to the library, with marks inside and around them, so that every write
//! shows.
use crate::case::same_list;
use crate::guarded::Guarded;
use std::cell::Cell as Held;
use std::fmt::Debug;
use std::ops::{Deref, DerefMut};
use wavpack_stereo::Pass;

/// How many marked cells stand before a list and after it.
const MARGIN: usize = 8;

/// Where lists stand.
#[derive(Clone, Copy, Debug, PartialEq)]
pub enum Place {
    /// With a margin on both sides.
    Margins,
    /// Right before a page that must not be touched, with a margin on the other side.
    BeforePage,
    /// Right after such a page, with a margin on the other side.
    AfterPage,
    /// In a block of the heap of just the list's size, for tools that watch blocks.
    Block,
}

thread_local! {
    static PLACE: Held<Place> = const { Held::new(Place::Margins) };
}

/// Lists that are made from now on stand there.
pub fn stand(place: Place) {
    PLACE.set(place);
}

/// Whether every element outside a list is watched.
pub fn watched() -> bool {
    PLACE.get() != Place::Margins
}

/// What a list may hold: numbers or passes, with a mark for each place.
pub trait Cell: Clone + PartialEq + Debug {
    fn mark(place: usize) -> Self;
}

impl Cell for i32 {
    fn mark(place: usize) -> i32 {
        u32::mark(place) as i32
    }
}

impl Cell for u32 {
    fn mark(place: usize) -> u32 {
        0xa5c3_0f69 ^ (place as u32).wrapping_mul(0x9e37_79b1)
    }
}

impl Cell for u8 {
    fn mark(place: usize) -> u8 {
        u32::mark(place).to_le_bytes()[3]
    }
}

impl Cell for Pass {
    fn mark(place: usize) -> Pass {
        Pass::from_slots(std::array::from_fn(|slot| i32::mark(Pass::SLOTS * place + slot)))
    }
}

/// A list with its margins.
enum Cells<T> {
    Block(Vec<T>),
    Guarded(Guarded<T>),
}

impl<T> Deref for Cells<T> {
    type Target = [T];
    fn deref(&self) -> &[T] {
        match self {
            Cells::Block(cells) => cells,
            Cells::Guarded(cells) => cells,
        }
    }
}

impl<T> DerefMut for Cells<T> {
    fn deref_mut(&mut self) -> &mut [T] {
        match self {
            Cells::Block(cells) => cells,
            Cells::Guarded(cells) => cells,
        }
    }
}

/// A list to lend, which starts and ends within its cells, and what they held when it was made.
pub struct Lent<T> {
    cells: Cells<T>,
    made: Vec<T>,
    start: usize,
    end: usize,
}

impl<T: Cell> Lent<T> {
    /// A list of `length` marks.
    pub fn marked(length: usize) -> Lent<T> {
        Lent::made(length, |_| {})
    }

    /// A list that holds `values`.
    pub fn holding(values: &[T]) -> Lent<T> {
        Lent::made(values.len(), |list| list.clone_from_slice(values))
    }

    /// A list of `length` marks that `fill` was given.
    fn made(length: usize, fill: impl FnOnce(&mut [T])) -> Lent<T> {
        let place = PLACE.get();
        let (start, after) = match place {
            Place::Margins => (MARGIN, MARGIN),
            Place::BeforePage => (MARGIN, 0),
            Place::AfterPage => (0, MARGIN),
            Place::Block => (0, 0),
        };
        let end = start + length;
        let mut made: Vec<T> = (0..end + after).map(T::mark).collect();
        fill(&mut made[start..end]);
        let cells = match place {
            Place::Margins | Place::Block => Cells::Block(made.clone()),
            Place::BeforePage => Cells::Guarded(Guarded::holding(&made, true)),
            Place::AfterPage => Cells::Guarded(Guarded::holding(&made, false)),
        };
        Lent { cells, made, start, end }
    }

    /// The list itself, to lend.
    pub fn list(&mut self) -> &mut [T] {
        &mut self.cells[self.start..self.end]
    }

    /// Whether the list starts with `written` and nothing else changed, within it or around it.
    pub fn written(&self, what: &str, written: &[T]) -> Result<(), String> {
        let end = self.start + written.len();
        same_list(what, &self.cells[self.start..end], written)?;
        let beside = |said| format!("beside what is written, {said}");
        same_list(what, &self.cells[..self.start], &self.made[..self.start]).map_err(beside)?;
        same_list(what, &self.cells[end..], &self.made[end..]).map_err(beside)
    }

    /// Whether nothing changed.
    pub fn kept(&self, what: &str) -> Result<(), String> {
        self.written(what, &[])
    }
}
