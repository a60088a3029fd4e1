//! A walk of rungs, from document 02, 10, and for what it leaves open docs/DECISIONS.md: the states, what swap,
//! opening and step refuse, and what they give. A rung's verdict is the Rust's, or that of document 02, 4
//! (sixty.rs). With the feature `stub` this file is built a second time, for the stub.

use super::adapter::{self, Ceiling, Prepared};
use super::expect;
use super::sixty::{self, Change};
use crate::ffi::{Edges, Figures, Station, Walk};

const NOUGHTS: Edges =
    Edges { power_low: 0.0, power_high: 0.0, spectral_low: 0.0, spectral_high: 0.0 };

/// "Image 0 is in force at first".
pub const FIRST: Walk = Walk { occupied: NOUGHTS, place: 0, image: 0, waiting: 0, walking: 0 };

/// What is wrong with a state that no call gives: "an image, a waiting or a walking byte above 1, a place above
/// 255, a swap that waits or a place above 0 with no walk open, or, with a place above 0, an edge that 15 would
/// refuse" (docs/DECISIONS.md). Edges from 6 on.
pub fn faults(w: &Walk) -> Vec<u16> {
    let idle = w.walking == 0;
    let mut out = vec![
        w.image > 1,
        w.waiting > 1,
        w.walking > 1,
        w.place > 255,
        idle && w.waiting == 1,
        idle && w.place > 0,
    ];
    let odd = w.occupied.figures().map(|x| w.place > 0 && expect::out_of_size(x));
    out.extend(odd);
    (0..out.len()).filter(|&i| out[i]).map(|i| i as u16).collect()
}

/// A state as it comes back where nothing of it changes: "Where its place is 0 its edges aren't looked at, and
/// come back as noughts; elsewhere negative zero reads as zero".
fn read(w: &Walk) -> Walk {
    let occupied = match w.place {
        0 => NOUGHTS,
        _ => Edges::of(w.occupied.figures().map(expect::read)),
    };
    Walk { occupied, ..*w }
}

/// "A table with nobody walking takes force immediately." "It refuses (29) a second swap while one waits".
pub fn swapped(w: &Walk) -> Result<Walk, u8> {
    if w.waiting == 1 {
        return Err(29);
    }
    if !faults(w).is_empty() {
        return Err(20);
    }
    Ok(match w.walking {
        0 => Walk { image: 1 - w.image, ..read(w) },
        _ => Walk { waiting: 1, ..read(w) },
    })
}

/// "(30, next) a step with no walk open or an opening while one is open, both before every other check".
pub fn opened(w: &Walk) -> Result<Walk, u8> {
    if w.walking == 1 {
        return Err(30);
    }
    if !faults(w).is_empty() {
        return Err(20);
    }
    Ok(Walk { walking: 1, ..read(w) })
}

/// What a step is lent.
pub struct Lent<'a> {
    pub images: [&'a Prepared; 2],
    pub s: Station,
    pub direction: u8,
    pub ordinary: Edges,
    pub floor: Edges,
    pub rungs: &'a [f64],
    pub floors: &'a [u8],
}

impl Lent<'_> {
    /// What one call of the ceiling meets on it, with this image.
    pub fn refusal(&self, image: u8) -> u8 {
        let p = self.images[usize::from(image)];
        let Lent { s, direction, ordinary, floor, rungs, floors, .. } = self;
        adapter::ceiling_refusal(p, s, *direction, ordinary, floor, rungs, floors)
    }

    /// One call of the ceiling, on this image and so many of its rungs.
    pub fn ceiling(&self, image: u8, rungs: usize) -> Result<Ceiling, String> {
        let p = self.images[usize::from(image)];
        let (figures, floors) = (&self.rungs[..4 * rungs], &self.floors[..rungs]);
        let Lent { s, direction, ordinary, floor, .. } = self;
        Ok(sixty::ceiling(p, s, *direction, ordinary, floor, figures, floors)?.0)
    }
}

/// How a walk ended.
#[derive(Clone, Copy, Debug, PartialEq)]
pub enum End {
    Blocked,
    Last,
    NoRung,
}

/// What a step gives; and what of its verdict document 02, 4 changed.
pub struct Stepped {
    pub ceiling: Ceiling,
    pub state: Walk,
    pub end: Option<End>,
    pub change: Option<Change>,
}

/// The smallest edges that hold both.
fn union(a: [f64; 4], b: [f64; 4]) -> [f64; 4] {
    [a[0].min(b[0]), a[1].max(b[1]), a[2].min(b[2]), a[3].max(b[3])]
}

/// After a walk's end: "the walk finishes under the table it began with, the next begins under the new one".
fn ended(w: &Walk) -> Walk {
    Walk { image: w.image ^ w.waiting, ..FIRST }
}

/// A step. "A walk ends with its first blocked rung or its last rung; a step lent no rung at its place ends it,
/// judging nothing. Each step gives the ceiling that the rungs judged so far give, and whether the walk is
/// over." "A step reads only its walk's image." "A refusal by any number leaves the state unchanged."
pub fn stepped(w: &Walk, lent: &Lent) -> Result<Stepped, String> {
    let refused = |refusal| Stepped {
        ceiling: Ceiling { refusal, rung: None, limit: None },
        state: *w,
        end: None,
        change: None,
    };
    if w.walking == 0 {
        return Ok(refused(30));
    }
    if !faults(w).is_empty() {
        return Ok(refused(20));
    }
    let refusal = lent.refusal(w.image);
    if refusal != 0 {
        return Ok(refused(refusal));
    }
    let place = w.place as usize;
    let before = place.checked_sub(1).map(|rung| rung as u16);
    let Some(rung) = lent.rungs.chunks(4).nth(place) else {
        let ceiling = Ceiling { refusal: 0, rung: before, limit: None };
        return Ok(Stepped { ceiling, state: ended(w), end: Some(End::NoRung), change: None });
    };
    let control = if lent.floors[place] == 1 { &lent.floor } else { &lent.ordinary };
    let own = [rung[0], rung[1], rung[2], rung[3]].map(expect::read);
    let mut edges = union(own, control.figures().map(expect::read));
    if place > 0 {
        edges = union(w.occupied.figures().map(expect::read), edges);
    }
    let edges = Edges::of(edges);
    let p = lent.images[usize::from(w.image)];
    let (verdict, change) = sixty::evaluate(p, &lent.s, 0, lent.direction, &edges)?;
    if verdict.verdict == 2 {
        let ceiling = Ceiling { refusal: 0, rung: before, limit: Some(verdict) };
        return Ok(Stepped { ceiling, state: ended(w), end: Some(End::Blocked), change });
    }
    let ceiling = Ceiling { refusal: 0, rung: Some(place as u16), limit: None };
    let last = place + 1 == lent.rungs.len() / 4;
    let state = match last {
        true => ended(w),
        false => Walk { occupied: edges, place: w.place + 1, ..*w },
    };
    Ok(Stepped { ceiling, state, end: last.then_some(End::Last), change })
}
