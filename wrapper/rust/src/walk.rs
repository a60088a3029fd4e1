//! A walk: a climb of rungs, one at a time, under the one of two images that was in force as it began.

use crate::answer::{self, Ceiling};
use crate::codes::{marked, refused, Direction, Refusal};
use crate::raw::{self, Edges};
use crate::station::Station;
use crate::version;

/// The state of a walk, so that a table can be loaded while a modem climbs: the walk finishes under the table
/// it began with, the next begins under the new one. There are two images, 0 and 1. The state is a value; each
/// call gives the next, and after a refusal the one before still holds.
///
/// ```
/// use pamuklid::{Direction, Edges, Policy, Refusal, Station, Walk};
///
/// let rungs = [Edges::both(1_250.0, 1_750.0), Edges::both(1_000.0, 2_000.0)];
/// // a station outside the rules' reach: no image is looked at
/// let station = Station { policy: Policy::NoRules, ..Station::fresh() };
/// let step = |walk: Walk| {
///     let (images, floors) = ([&[][..], &[][..]], [false; 2]);
///     walk.step(&station, Direction::Originate, &rungs[0], &rungs[0], images, &rungs, &floors)
/// };
/// let mut walk = Walk::first().open()?;
/// assert_eq!(walk.open(), Err(Refusal::Walk));
/// let first = step(walk)?;
/// assert_eq!((first.ceiling.rung, first.over), (Some(0), false));
/// // a new table came: it waits for the end of this walk
/// walk = first.state.swap()?;
/// assert_eq!((walk.image(), walk.is_waiting()), (0, true));
/// let last = step(walk)?;
/// assert_eq!((last.ceiling.rung, last.over), (Some(1), true));
/// assert_eq!((last.state.image(), last.state.is_open()), (1, false));
/// # Ok::<(), Refusal>(())
/// ```
#[derive(Clone, Copy, Debug, PartialEq)]
pub struct Walk {
    flat: raw::Walk,
}

/// What a step answers.
#[derive(Clone, Copy, Debug, PartialEq)]
pub struct Step {
    /// The ceiling of the rungs judged so far, this one among them.
    pub ceiling: Ceiling,
    /// Whether the walk is over: its first blocked rung or its last was judged, or no rung was lent at its
    /// place.
    pub over: bool,
    /// The next state.
    pub state: Walk,
}

impl Walk {
    /// The first state: image 0 in force, no walk open, no swap waiting.
    pub fn first() -> Self {
        version::checked();
        Self { flat: raw::walk_first() }
    }

    /// Changes to the other image: at once with no walk open, else in the step that ends the walk. Refusal 29
    /// ([`Refusal::SecondSwap`]: a swap waits already).
    pub fn swap(self) -> Result<Self, Refusal> {
        version::checked();
        next(raw::walk_swap(self.flat))
    }

    /// Opens a walk, under the image in force. Refusal 30 ([`Refusal::Walk`]: one is open already).
    pub fn open(self) -> Result<Self, Refusal> {
        version::checked();
        next(raw::walk_open(self.flat))
    }

    /// Judges the rung at the walk's place, with what the rungs before it occupy, and none of these again. With
    /// no rung at its place nothing is judged, and the walk is over. A swap that waits takes force as the walk
    /// ends.
    ///
    /// `images` are image 0 and image 1; the walk's alone is read, the other may be anything. All else is as
    /// [`ceiling`](crate::ceiling) has it, with all rungs in every step. Where every step is lent the same, the
    /// last one's ceiling is that of one call of [`ceiling`](crate::ceiling) on the image that was in force as
    /// the walk was opened, whatever swaps came between.
    ///
    /// Refusals 30 ([`Refusal::Walk`]: no walk is open), then those of [`ceiling`](crate::ceiling): 20 to 22, 1
    /// to 14 of the walk's image, 15, 16. A walk whose image is refused stays open until the image is lent
    /// whole again.
    #[allow(clippy::too_many_arguments)]
    pub fn step(
        self,
        station: &Station,
        direction: Direction,
        ordinary: &Edges,
        floor: &Edges,
        images: [&[u8]; 2],
        rungs: &[Edges],
        floors: &[bool],
    ) -> Result<Step, Refusal> {
        version::checked();
        let flat = raw::walk_step(
            self.flat,
            station.flat(),
            direction.number(),
            *ordinary,
            *floor,
            images[0],
            images[1],
            raw::figures(rungs),
            raw::bytes(floors),
        );
        let ceiling = answer::ceiling(&flat.ceiling)?;
        Ok(Step { ceiling, over: marked("over mark", flat.over), state: Self { flat: flat.state } })
    }

    /// The image in force, 0 or 1; while a walk is open the one that it goes by.
    pub const fn image(&self) -> usize {
        self.flat.image as usize
    }

    /// How many rungs of the walk that is open were judged; 0 with none open.
    pub const fn place(&self) -> usize {
        self.flat.place as usize
    }

    /// Whether a walk is open.
    pub const fn is_open(&self) -> bool {
        self.flat.walking != 0
    }

    /// Whether a swap waits for the end of the walk.
    pub const fn is_waiting(&self) -> bool {
        self.flat.waiting != 0
    }
}

fn next(flat: raw::WalkAnswer) -> Result<Walk, Refusal> {
    refused(flat.refusal)?;
    Ok(Walk { flat: flat.state })
}
