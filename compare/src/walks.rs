//! Walks of rungs (document 02, 10): sequences of swaps, openings and steps under two images, mostly in the order
//! of a modem's loop, sometimes not; with the same lent parts throughout and with parts that change between
//! steps; with states that no call gives. What each call must give is worked out in walk.rs from the state that
//! goes in; every part of every answer and state is compared, edges by their bits. A walk whose steps were all
//! lent the same is held to one call of the ceiling too, of the library and of the Rust.

use std::process::exit;
use std::rc::Rc;

use crate::Run;
use crate::cases::{self, Ladder};
use crate::compare::{Told, agreed, equal, unchanged};
use crate::damage;
use crate::draw::{BIG, Rng};
use crate::expect;
use crate::ffi::{self, Edges, Figures, Station, Walk};
use crate::fixed::{self, wrong};
use crate::image::{self, SEGMENTS, Table, edition_of};
use crate::oracle::adapter::{self, Ceiling, Prepared};
use crate::oracle::walk::{self, End, Lent, Stepped};
use crate::reach::Key;
use crate::tables::{self, World};

/// What the sequences of a run met: calls, steps that were answered, calls refused; walks that were held to one
/// call of the ceiling, and steps before their end that were held to one of the rungs so far.
#[derive(Default)]
pub struct Met {
    pub sequences: u64,
    pub calls: u64,
    pub steps: u64,
    pub refused: u64,
    pub equal: u64,
    pub so_far: u64,
}

/// An image and what there is to know of it.
struct Ready {
    image: Vec<u8>,
    p: Prepared,
}

impl Ready {
    fn of(image: Vec<u8>) -> Rc<Self> {
        let p = adapter::prepare(&image).unwrap_or_else(|what| wrong("the check", &what));
        Rc::new(Self { image, p })
    }
}

/// What a step is lent. Two with the same number are the same.
#[derive(Clone)]
struct Hand {
    number: u64,
    images: [Rc<Ready>; 2],
    s: Station,
    direction: u8,
    l: Rc<Ladder>,
}

impl Hand {
    fn lent(&self) -> Lent<'_> {
        Lent {
            images: [&self.images[0].p, &self.images[1].p],
            s: self.s,
            direction: self.direction,
            ordinary: self.l.ordinary,
            floor: self.l.floor,
            rungs: &self.l.rungs,
            floors: &self.l.floors,
        }
    }

    fn rungs(&self) -> usize {
        self.l.rungs.len() / 4
    }

    /// The parts that another has otherwise: rungs and control frames, dial, the rest of the station, direction,
    /// policy, the walk's image, the other.
    fn changes(&self, other: &Self, image: u8) -> Vec<u16> {
        let bits = |l: &Ladder| -> Vec<u64> {
            let edges = l.ordinary.figures().into_iter().chain(l.floor.figures());
            edges.chain(l.rungs.iter().copied()).map(f64::to_bits).collect()
        };
        let rest = |s: &Station| {
            let codes = [s.control, s.license, s.sideband, s.itu_region, s.band_plan];
            let figures = [s.margin_lower_hz, s.margin_upper_hz, s.power_w].map(f64::to_bits);
            (codes, figures, s.power_known)
        };
        let (a, b) = (&self.s, &other.s);
        let own = usize::from(image);
        let differ = [
            bits(&self.l) != bits(&other.l) || self.l.floors != other.l.floors,
            a.dial_hz.to_bits() != b.dial_hz.to_bits() || a.dial_known != b.dial_known,
            rest(a) != rest(b),
            self.direction != other.direction,
            a.policy != b.policy,
            self.images[own].image != other.images[own].image,
            self.images[1 - own].image != other.images[1 - own].image,
        ];
        (0..7).filter(|&i| differ[i]).map(|i| i as u16).collect()
    }
}

fn same_state(got: &Walk, want: &Walk) -> Told<()> {
    for (i, (a, b)) in got.occupied.figures().into_iter().zip(want.occupied.figures()).enumerate() {
        if a.to_bits() != b.to_bits() {
            return Err(format!("the state's edge {i}: library {a:?}, expected {b:?}"));
        }
    }
    equal("the state's place", got.place, want.place)?;
    equal("the state's image", got.image, want.image)?;
    equal("the state's waiting", got.waiting, want.waiting)?;
    equal("the state's walking", got.walking, want.walking)
}

fn same_ceiling(got: &ffi::Ceiling, want: &Ceiling) -> Told<()> {
    equal("refusal", got.refusal, want.refusal)?;
    equal("rung", got.rung, want.rung_number())?;
    equal("limit_known", got.limit_known, want.limit.is_some().into())?;
    agreed(Ok(want.limit_or_none()), &got.limit).map(|_| ())
}

/// The answer of a swap or an opening.
fn compare_answer(w: &Walk, got: &ffi::WalkAnswer, want: Result<Walk, u8>) -> Told<()> {
    let (state, refusal) = match want {
        Ok(state) => (state, 0),
        Err(refusal) => (*w, refusal),
    };
    equal("refusal", got.refusal, refusal)?;
    same_state(&got.state, &state)
}

fn compare_step(w: &Walk, hand: &Hand) -> Told<Stepped> {
    let images = hand.images.each_ref().map(|ready| ready.image.clone());
    let (rungs, floors) = (hand.l.rungs.clone(), hand.l.floors.clone());
    let Ladder { ordinary, floor, .. } = *hand.l;
    let (s, direction) = (hand.s, hand.direction);
    let got =
        ffi::walk_step(*w, s, direction, ordinary, floor, &images[0], &images[1], &rungs, &floors);
    let want = walk::stepped(w, &hand.lent())?;
    same_ceiling(&got.ceiling, &want.ceiling)?;
    equal("over", got.over, want.end.is_some().into())?;
    same_state(&got.state, &want.state)?;
    for (ready, after) in hand.images.iter().zip(&images) {
        unchanged(&ready.image, after, "image")?;
    }
    unchanged(&hand.l.floors, &floors, "floor bytes")?;
    let bits = |x: &[f64]| x.iter().flat_map(|x| x.to_bits().to_le_bytes()).collect::<Vec<u8>>();
    unchanged(&bits(&hand.l.rungs), &bits(&rungs), "rungs")?;
    Ok(want)
}

/// "If every step is lent the same two images, rungs, control edges, direction and station record, a finished
/// walk equals one call of the ceiling on the table at its start", and each step before it that of the rungs
/// judged so far: the library's and the Rust's.
fn compare_one_call(image: u8, hand: &Hand, rungs: usize, want: &Ceiling) -> Told<()> {
    let ready = &hand.images[usize::from(image)];
    let (figures, floors) = (&hand.l.rungs[..4 * rungs], &hand.l.floors[..rungs]);
    let Ladder { ordinary, floor, .. } = *hand.l;
    let one = ffi::ceiling(hand.s, hand.direction, ordinary, floor, &ready.image, figures, floors);
    let at = |what| format!("one call of the ceiling on image {image} and {rungs} rungs: {what}");
    same_ceiling(&one, want).map_err(at)?;
    same_ceiling(&one, &hand.lent().ceiling(image, rungs)?).map_err(at)
}

/// A walk that is open: the image in force as it was opened, what its steps were lent, the swaps made since.
struct Open {
    image: u8,
    first: Option<Rc<Hand>>,
    last: Option<Rc<Hand>>,
    same: bool,
    swaps: u16,
}

/// A sequence: its state, and the walk in it where that was opened and has gone on by calls alone.
struct Sequence {
    w: Walk,
    open: Option<Open>,
    /// A swap waited for the end of the last walk.
    waited: bool,
}

/// Why a figure of a state's edges is refused.
fn odd_edge(x: f64) -> u16 {
    match x {
        _ if x.is_nan() => 0,
        f64::INFINITY => 1,
        f64::NEG_INFINITY => 2,
        _ if x > 0.0 => 3,
        _ => 4,
    }
}

impl Run {
    fn walked<T>(&self, told: Told<T>, call: &str, w: &Walk, hand: Option<&Hand>) -> T {
        told.unwrap_or_else(|what| {
            println!(
                "DIFFERENCE (seed {}, sequence {} of the walks): {call}: {what}\n  {w:?}",
                self.seed,
                self.walks.sequences + 1
            );
            if let Some(hand) = hand {
                let Ladder { ordinary, floor, rungs, floors } = &*hand.l;
                println!("  {:?}, direction {}", hand.s, hand.direction);
                println!("  ordinary {ordinary:?}\n  floor {floor:?}\n  rungs {rungs:?}");
                println!("  floors {floors:?}");
                for (i, ready) in hand.images.iter().enumerate() {
                    println!("  image {i}, refused with {}: {:?}", ready.p.refusal, ready.image);
                }
            }
            exit(1)
        })
    }

    /// What a state has that a call refuses, and what it has that a call lets pass.
    fn state_met(&mut self, w: &Walk, call: u16, refusal: u8) {
        let faults = walk::faults(w);
        let reach = &mut self.reach;
        if matches!(refusal, 29 | 30) && !faults.is_empty() {
            reach.count("walk 29, 30, a state that no call gives", refusal.into(), call);
        }
        if refusal == 20
            && let [fault] = faults[..]
        {
            reach.count("walk 20 by the state, call", fault, call);
            if let Some(edge) = fault.checked_sub(6) {
                let x = w.occupied.figures()[usize::from(edge)];
                reach.count("walk 20 by an edge", edge, odd_edge(x));
            }
        }
        if refusal != 0 {
            return;
        }
        let edges = w.occupied.figures();
        if w.place == 0 && edges.into_iter().any(expect::out_of_size) {
            reach.count("walk edges that aren't looked at", call, 0);
        }
        if w.place > 0 && edges.iter().any(|x| x.to_bits() == 1 << 63) {
            reach.count("walk negative zero", call, 0);
        }
    }

    fn first(&mut self) -> Walk {
        self.walks.calls += 1;
        let got = ffi::walk_first();
        self.walked(same_state(&got, &walk::FIRST), "first", &got, None);
        got
    }

    fn swap(&mut self, q: &mut Sequence) {
        let w = q.w;
        let want = walk::swapped(&w);
        self.walks.calls += 1;
        self.walked(compare_answer(&w, &ffi::walk_swap(w), want), "swap", &w, None);
        self.state_met(&w, 0, want.err().unwrap_or(0));
        match want {
            Ok(state) => {
                self.reach.count("walk swap at once, waits", w.walking.into(), w.image.into());
                if let Some(open) = &mut q.open {
                    open.swaps += 1;
                }
                q.w = state;
            }
            Err(refusal) => {
                self.walks.refused += 1;
                self.reach.count("walk swap refused", refusal.into(), 0);
            }
        }
    }

    fn open(&mut self, q: &mut Sequence) {
        let w = q.w;
        let want = walk::opened(&w);
        self.walks.calls += 1;
        self.walked(compare_answer(&w, &ffi::walk_open(w), want), "open", &w, None);
        self.state_met(&w, 1, want.err().unwrap_or(0));
        match want {
            Ok(state) => {
                let what = "walk opened, image, after a swap that waited";
                self.reach.count(what, w.image.into(), q.waited.into());
                q.open =
                    Some(Open { image: w.image, first: None, last: None, same: true, swaps: 0 });
                q.w = state;
            }
            Err(refusal) => {
                self.walks.refused += 1;
                self.reach.count("walk open refused", refusal.into(), 0);
            }
        }
    }

    fn step(&mut self, q: &mut Sequence, hand: &Rc<Hand>) -> Stepped {
        let w = q.w;
        self.walks.calls += 1;
        let t = self.walked(compare_step(&w, hand), "step", &w, Some(hand));
        let refusal = t.ceiling.refusal;
        self.state_met(&w, 2, refusal);
        if refusal != 0 {
            self.walks.refused += 1;
            self.reach.count("walk step refused", refusal.into(), 0);
            let lent = if w.image > 1 { 0 } else { hand.lent().refusal(w.image) };
            let by_state = refusal == 20 && !walk::faults(&w).is_empty();
            if by_state || refusal == 30 {
                let lent = if matches!(lent, 2..=14) { 1 } else { lent.into() };
                self.reach.count("walk refused before what is lent", refusal.into(), lent);
            }
            return t;
        }
        self.walks.steps += 1;
        self.stepped(&w, hand, &t);
        let mut held = None;
        if let Some(open) = &mut q.open {
            let first = open.first.get_or_insert_with(|| hand.clone());
            open.same &= first.number == hand.number;
            held = self.in_a_walk(&w, open, hand, &t);
            open.last = Some(hand.clone());
        }
        if let Some(told) = held {
            self.walked(told, "step", &w, Some(hand));
        }
        q.w = t.state;
        if t.end.is_some() {
            (q.open, q.waited) = (None, w.waiting == 1);
        }
        t
    }

    /// What a step is about.
    fn stepped(&mut self, w: &Walk, hand: &Hand, t: &Stepped) {
        let reach = &mut self.reach;
        let [own, other] = [w.image, 1 - w.image].map(|image| &hand.images[usize::from(image)]);
        if hand.s.policy == 2 {
            reach.count("walk step, edition", edition_of(&own.image).unwrap_or(0), 0);
            let how = match other.p.refusal {
                0 => 0,
                _ if other.image.is_empty() => 1,
                _ => 2,
            };
            reach.count("walk step, the other image right, empty, refused", how, 0);
        } else if own.p.refusal != 0 {
            reach.count("walk step, no rules, an image that isn't read", 0, 0);
        }
        reach.count("walk step by direction", hand.direction.into(), 0);
        if let Some(change) = &t.change {
            reach.count("walk step changed by document 02, 4", change.now.verdict.into(), 0);
        }
        if let Some(limit) = &t.ceiling.limit {
            reach.count("walk limit", limit.code.into(), 0);
        }
        if let Some(end) = t.end {
            let later = u16::from(w.place > 0);
            let waiting = u16::from(w.waiting);
            let what = match end {
                End::Blocked => "walk over, blocked, waiting, later",
                End::Last => "walk over, last, waiting, later",
                End::NoRung => "walk over, no rung, waiting, later",
            };
            reach.count(what, waiting, later);
            if end == End::Blocked && w.place as usize + 1 == hand.rungs() {
                reach.count("walk over, the last rung blocked", 0, 0);
            }
            if t.ceiling.rung == Some(255) {
                reach.count("walk at rung 255", 0, 0);
            }
        }
    }

    /// A step of a walk that was opened here: steps after changes, and where all were lent the same, one call of
    /// the ceiling.
    fn in_a_walk(&mut self, w: &Walk, open: &Open, hand: &Hand, t: &Stepped) -> Option<Told<()>> {
        let (place, n) = (w.place as usize, hand.rungs());
        let judged = (place + usize::from(t.end != Some(End::NoRung))).min(n);
        if !open.same {
            if let Some(last) = open.last.as_ref().filter(|last| last.number != hand.number) {
                let what = match t.end {
                    Some(End::NoRung) => "walk, no rung after a change of",
                    _ => "walk step after a change of",
                };
                for part in hand.changes(last, w.image) {
                    self.reach.count(what, part, 0);
                }
            }
            let one = hand.lent().ceiling(open.image, judged);
            if let Ok(one) = one
                && (one.rung, one.limit.is_some()) != (t.ceiling.rung, t.ceiling.limit.is_some())
            {
                self.reach.count("walk step, unlike one call of the ceiling", 0, 0);
            }
            return None;
        }
        if t.end.is_some() {
            self.walks.equal += 1;
            let (rung, limit) = (t.ceiling.rung.is_some(), t.ceiling.limit.is_some());
            self.reach.count("walk equal to one call, rung, limit", rung.into(), limit.into());
            self.reach.count("walk equal to one call, swaps", open.swaps.min(1), 0);
            let rungs = match n {
                0 | 1 => n as u16,
                256 => 3,
                _ => 2,
            };
            self.reach.count("walk equal to one call, rungs", rungs, 0);
            return Some(compare_one_call(open.image, hand, n, &t.ceiling));
        }
        if place >= 8 && place % 32 != 31 {
            return None;
        }
        self.walks.so_far += 1;
        Some(compare_one_call(open.image, hand, judged, &t.ceiling))
    }
}

/// What walks have to meet. Calls: 0 swap, 1 opening, 2 step.
pub fn required() -> Vec<Key> {
    let mut out: Vec<Key> = Vec::new();
    let mut all = |what, keys: &[(u16, u16)]| out.extend(keys.iter().map(|&(a, b)| (what, a, b)));
    all("walk swap refused", &[(29, 0), (20, 0)]);
    all("walk open refused", &[(30, 0), (20, 0)]);
    let refusals: Vec<(u16, u16)> = (1..=16).chain([20, 21, 22, 30]).map(|n| (n, 0)).collect();
    all("walk step refused", &refusals);
    all("walk 29, 30, a state that no call gives", &[(29, 0), (30, 1), (30, 2)]);
    // image, waiting, walking; a place above 255; with no walk open a swap that waits, a place above 0
    for call in 0..3 {
        all("walk 20 by the state, call", &[(0, call), (1, call), (2, call)]);
    }
    all("walk 20 by the state, call", &[(3, 0), (3, 2), (4, 1), (5, 0), (5, 1)]);
    for edge in 0..4 {
        all("walk 20 by the state, call", &[(6 + edge, 0), (6 + edge, 2)]);
        // NaN, the infinities, above 2^40 in size
        let ways: Vec<(u16, u16)> = (0..5).map(|how| (edge, how)).collect();
        all("walk 20 by an edge", &ways);
    }
    for refusal in [20, 30] {
        let lent = [0, 1, 15, 16, 20, 21, 22].map(|lent| (refusal, lent));
        all("walk refused before what is lent", &lent);
    }
    all("walk edges that aren't looked at", &[(0, 0), (1, 0), (2, 0)]);
    all("walk negative zero", &[(0, 0), (2, 0)]);
    let pairs = [(0, 0), (0, 1), (1, 0), (1, 1)];
    all("walk swap at once, waits", &pairs);
    all("walk opened, image, after a swap that waited", &pairs);
    all("walk over, blocked, waiting, later", &pairs);
    all("walk over, last, waiting, later", &pairs);
    all("walk over, no rung, waiting, later", &pairs);
    all("walk over, the last rung blocked", &[(0, 0)]);
    all("walk at rung 255", &[(0, 0)]);
    all("walk step, edition", &[(1, 0), (2, 0)]);
    all("walk step, the other image right, empty, refused", &[(0, 0), (1, 0), (2, 0)]);
    all("walk step, no rules, an image that isn't read", &[(0, 0)]);
    all("walk step by direction", &[(0, 0), (1, 0), (2, 0), (3, 0)]);
    all("walk step changed by document 02, 4", &[(0, 0), (1, 0), (2, 0)]);
    // codes that a limit can have: the blocked ones for data, 4 apart
    let codes = [1, 2, 5, 6, 7, 8, 9, 10, 11, 12, 13, 14, 15, 18, 19, 20, 22, 23, 24];
    all("walk limit", &codes.map(|code| (code, 0)));
    for part in 0..7 {
        all("walk step after a change of", &[(part, 0)]);
    }
    all("walk, no rung after a change of", &[(0, 0)]);
    all("walk step, unlike one call of the ceiling", &[(0, 0)]);
    all("walk equal to one call, rung, limit", &pairs);
    all("walk equal to one call, swaps", &[(0, 0), (1, 0)]);
    all("walk equal to one call, rungs", &[(0, 0), (1, 0), (2, 0), (3, 0)]);
    out
}

// ------------------------------------------------------------------------------------- runs

/// The images that a world's sequences are lent, and their count of hands.
struct Pool {
    w: World,
    right: Vec<Rc<Ready>>,
    refused: Vec<Rc<Ready>>,
    none: Rc<Ready>,
    hands: u64,
}

impl Pool {
    fn draw(rng: &mut Rng) -> Self {
        let w = if rng.chance(25) { tables::brush(rng) } else { tables::world(rng) };
        let mut right = vec![w.image.clone(), image::raised(&w.image)];
        // the same with another limit, without a segment, of another region; another world's
        let t = &w.table;
        let narrow = rng.pick(&w.widths).abs().max(f64::from_bits(1)).min(BIG);
        let mut others = vec![
            Table { data_limit: narrow, ..t.clone() },
            Table { region: t.region.wrapping_add(1), ..t.clone() },
        ];
        if t.tables[SEGMENTS].len() > 1 {
            let mut fewer = t.clone();
            fewer.tables[SEGMENTS].remove(rng.below(t.tables[SEGMENTS].len()));
            others.push(fewer);
        }
        let other = rng.below(others.len());
        right.push(others.swap_remove(other).encode());
        right.push(tables::world(rng).image);
        let damaged = [
            damage::damaged(rng, &w),
            damage::several(rng, &w),
            damage::second(rng, &w),
            image::raised(&damage::several(rng, &w)),
        ];
        let ready = |images: Vec<Vec<u8>>, right: bool| {
            let all = images.into_iter().map(Ready::of);
            all.filter(|ready| (ready.p.refusal == 0) == right).collect()
        };
        Self {
            right: ready(right, true),
            refused: ready(damaged.to_vec(), false),
            none: Ready::of(Vec::new()),
            w,
            hands: 0,
        }
    }

    fn image(&self, rng: &mut Rng, right: usize) -> Rc<Ready> {
        match rng.below(100) {
            n if n < right => self.right[rng.below(self.right.len())].clone(),
            n if n % 3 == 0 || self.refused.is_empty() => self.none.clone(),
            _ => self.refused[rng.below(self.refused.len())].clone(),
        }
    }

    fn numbered(&mut self, hand: Hand) -> Rc<Hand> {
        self.hands += 1;
        Rc::new(Hand { number: self.hands, ..hand })
    }

    /// A signal's ladder, its station, and two images, of which the first mostly lets it climb: drawn again, up to
    /// five times, while its first rung is blocked there.
    fn hand(&mut self, rng: &mut Rng, only: Option<u8>) -> Rc<Hand> {
        let p = &self.right[0].p;
        let turn = |drawn| only.unwrap_or(drawn);
        let mut tries = 0;
        let (s, direction, l) = loop {
            let (signal, s, _, _, direction) =
                crate::draw(rng, &self.w, turn, |_, s, e, _, direction| {
                    adapter::evaluate(p, s, 0, direction, e).is_ok_and(|d| d.verdict == 2)
                });
            let direction = if rng.chance(25) { only.unwrap_or(3) } else { direction };
            let l = cases::ladder(rng, &self.w, &signal);
            let n = l.floors.len().min(1);
            let first = (&l.rungs[..4 * n], &l.floors[..n]);
            let climbs =
                adapter::ceiling(p, &s, direction, &l.ordinary, &l.floor, first.0, first.1)
                    .is_ok_and(|c| c.limit.is_none());
            tries += 1;
            if climbs || tries == 6 || rng.chance(10) {
                break (s, direction, Rc::new(l));
            }
        };
        let own = self.right[rng.below(2)].clone();
        let mut images = [own, self.image(rng, 85)];
        if rng.chance(8) {
            images[0] = self.image(rng, 50);
        }
        if rng.chance(50) {
            images.swap(0, 1);
        }
        self.numbered(Hand { number: 0, images, s, direction, l })
    }

    /// A hand with one part otherwise.
    fn changed(&mut self, rng: &mut Rng, hand: &Hand, only: Option<u8>) -> Rc<Hand> {
        let mut hand = hand.clone();
        let fresh = self.hand(rng, only);
        match rng.below(9) {
            0 => hand.l = fresh.l.clone(),
            1 | 2 => {
                let mut l = (*hand.l).clone();
                let n = l.floors.len();
                match rng.below(4) {
                    0 => {
                        let n = rng.below(n + 1);
                        l.rungs.truncate(4 * n);
                        l.floors.truncate(n);
                    }
                    1 if n < 250 => {
                        l.rungs.extend(&fresh.l.rungs);
                        l.floors.extend(&fresh.l.floors);
                        l.rungs.truncate(1024);
                        l.floors.truncate(256);
                    }
                    2 => (l.ordinary, l.floor) = (fresh.l.ordinary, fresh.l.floor),
                    _ => l.floors.iter_mut().for_each(|floor| *floor = 1 - *floor),
                }
                hand.l = Rc::new(l);
            }
            3 => hand.s.dial_hz = fresh.s.dial_hz,
            4 => hand.s = Station { policy: hand.s.policy, dial_hz: hand.s.dial_hz, ..fresh.s },
            5 => hand.direction = only.unwrap_or(rng.below(4) as u8),
            6 => hand.s.policy = rng.pick(&[0, 1, 2, 2, 3]),
            _ => hand.images[rng.below(2)] = self.image(rng, 80),
        }
        if hand.s.dial_known == 1 && expect::out_of_size(hand.s.dial_hz) {
            hand.s.dial_hz = 0.0;
        }
        self.numbered(hand)
    }

    /// A hand that is refused, mostly.
    fn spoilt(&mut self, rng: &mut Rng, hand: &Hand) -> Rc<Hand> {
        let mut hand = hand.clone();
        for _ in 0..rng.pick(&[1, 1, 2]) {
            match rng.below(6) {
                0 => damage::spoil_station(rng, &mut hand.s),
                1 => damage::spoil_direction(rng, &mut hand.direction),
                2 | 3 => {
                    let mut l = (*hand.l).clone();
                    damage::spoil_ladder(rng, &mut l);
                    hand.l = Rc::new(l);
                }
                _ => hand.images = [self.image(rng, 0), self.image(rng, 0)],
            }
        }
        self.numbered(hand)
    }
}

/// A state with something else in it, mostly what no call gives.
fn damaged_state(rng: &mut Rng, w: &Walk, l: &Ladder) -> Walk {
    let mut d = *w;
    if rng.chance(50) {
        let place = rng.pick(&[0, 1, 2, 3, 100, 255]);
        d = Walk { occupied: l.ordinary, place, image: rng.below(2) as u8, waiting: 0, walking: 1 };
        if rng.chance(30) {
            d = Walk { place: 0, walking: 0, ..d };
        } else {
            d.waiting = rng.below(2) as u8;
        }
    }
    for _ in 0..rng.pick(&[1, 1, 1, 2]) {
        match rng.below(12) {
            0 => d.image = rng.pick(&[2, 3, 128, 254, 255, 1]),
            1 => d.waiting = rng.pick(&[2, 3, 128, 254, 255, 1]),
            2 => d.walking = rng.pick(&[2, 3, 128, 254, 255, 1]),
            3 => {
                d.place = rng.pick(&[256, 257, 511, 65_536, 1 << 24, 1 << 31, u32::MAX, 255, 1, 0])
            }
            4 => (d.waiting, d.walking) = (1, 0),
            5 => (d.place, d.walking) = (rng.pick(&[1, 2, 255, 256]), 0),
            n => {
                if n < 10 && d.walking == 1 && d.place == 0 {
                    d.place = 1 + rng.below(4) as u32;
                }
                damage::spoil_edges(rng, &mut d.occupied);
            }
        }
    }
    d
}

/// A sequence of calls.
fn sequence(run: &mut Run, rng: &mut Rng, pool: &mut Pool) {
    let only = run.directions.only;
    let mut hand = pool.hand(rng, only);
    let changing = rng.chance(35);
    let damaging = rng.chance(25);
    let spoiling = rng.chance(40);
    let calls = match hand.rungs() {
        n if n > 20 && rng.chance(60) => n + 8,
        _ => 1 + rng.below(40),
    };
    let mut q = Sequence { w: run.first(), open: None, waited: false };
    for _ in 0..calls {
        if damaging && rng.chance(20) {
            let d = damaged_state(rng, &q.w, &hand.l);
            let tried = || Sequence { w: d, open: None, waited: false };
            let (mut a, mut b, mut c) = (tried(), tried(), tried());
            let lent = if rng.chance(30) { pool.spoilt(rng, &hand) } else { hand.clone() };
            run.swap(&mut a);
            run.open(&mut b);
            run.step(&mut c, &lent);
            if rng.chance(30) {
                q = match rng.below(4) {
                    0 => a,
                    1 => b,
                    2 => c,
                    _ => tried(),
                };
                q.open = None;
            }
        }
        if q.w.walking == 0 && rng.chance(40) {
            hand = pool.hand(rng, only);
        } else if changing && rng.chance(40) {
            hand = pool.changed(rng, &hand, only);
        }
        let lent = if spoiling && rng.chance(10) { pool.spoilt(rng, &hand) } else { hand.clone() };
        match (q.w.walking, rng.below(100)) {
            (_, 0) => _ = run.first(),
            (_, 1..14) => run.swap(&mut q),
            (0, 14..92) | (_, 14..18) => run.open(&mut q),
            _ => _ = run.step(&mut q, &lent),
        }
        if q.w.walking > 1 || !walk::faults(&q.w).is_empty() {
            // nothing goes on from there
            if rng.chance(30) {
                q = Sequence { w: run.first(), open: None, waited: false };
            }
        }
    }
    run.walks.sequences += 1;
}

/// So many sequences.
pub fn run(run: &mut Run, sequences: u64) {
    let mut turn = 0;
    while run.walks.sequences < sequences {
        turn += 1;
        if !run.brief && turn % 2000 == 0 {
            eprintln!("{} sequences of walks", run.walks.sequences);
        }
        let rng = &mut Rng::new(run.seed, turn + (1 << 44));
        let mut pool = Pool::draw(rng);
        if pool.right.first().is_none_or(|ready| ready.image != pool.w.image) {
            // a world that is refused
            continue;
        }
        for _ in 0..if pool.w.image.len() > 8192 { 2 } else { 8 } {
            sequence(run, rng, &mut pool);
        }
    }
}

/// What the papers' words settle.
pub fn fixed(run: &mut Run) {
    let small = Ready::of(fixed::small().encode());
    let none = Ready::of(Vec::new());
    let s = Station {
        margin_lower_hz: 0.0,
        margin_upper_hz: 0.0,
        dial_hz: 30.0,
        dial_known: 1,
        policy: 2,
        control: 0,
        license: 4,
        sideband: 0,
        itu_region: 0,
        ..expect::FRESH
    };
    let edges = |high: f64| Edges::of([0.0, high, 0.0, high]);
    let ladder = |highs: &[f64]| {
        let rungs: Vec<f64> = highs.iter().flat_map(|&high| edges(high).figures()).collect();
        let floors = vec![0; highs.len()];
        Rc::new(Ladder { ordinary: edges(0.0), floor: edges(0.0), rungs, floors })
    };
    let mut number = 0;
    let mut hand = |images: [&Rc<Ready>; 2], dial_hz: f64, highs: &[f64]| {
        number += 1;
        let s = Station { dial_hz, ..s };
        let images = images.map(Rc::clone);
        Rc::new(Hand { number, images, s, direction: 0, l: ladder(highs) })
    };
    let mut say = |what: &str, q: &mut Sequence, hand: &Rc<Hand>, want: (u8, i32, u8, bool)| {
        let t = run.step(q, hand);
        let code = t.ceiling.limit.map_or(0, |limit| limit.code);
        let got = (t.ceiling.refusal, t.ceiling.rung_number(), code, t.end.is_some());
        if got != want {
            wrong(what, &format!("{got:?}"));
        }
    };
    let opened = || Sequence { w: Walk { walking: 1, ..walk::FIRST }, open: None, waited: false };
    // "small, rungs 0–5 and 0–9, dial 30 and then 90: rung 0 with limit 14"
    let both = [&small, &none];
    let mut q = opened();
    say("the first rung", &mut q, &hand(both, 30.0, &[5.0, 9.0]), (0, 0, 0, false));
    say("another dial", &mut q, &hand(both, 90.0, &[5.0, 9.0]), (0, 0, 14, true));
    // "with no rung at its place the walk ends, nothing is judged"
    say("no rungs", &mut opened(), &hand(both, 30.0, &[]), (0, -1, 0, true));
    let mut q = opened();
    say("the first rung", &mut q, &hand(both, 30.0, &[5.0, 9.0]), (0, 0, 0, false));
    say("no rung at its place", &mut q, &hand(both, 30.0, &[5.0]), (0, 0, 0, true));
    // "'Over' is said with the first blocked rung or with the last rung that is lent"
    say("one rung", &mut opened(), &hand(both, 30.0, &[5.0]), (0, 0, 0, true));
    say("a blocked rung", &mut opened(), &hand(both, 30.0, &[11.0, 12.0]), (0, -1, 12, true));
    // "A walk whose image is refused can't be ended by lending no rungs: 22 or 1 to 14 come first"
    let mut q = opened();
    say("an empty image", &mut q, &hand([&none, &small], 30.0, &[]), (22, -1, 0, false));
    say("lent whole again", &mut q, &hand(both, 30.0, &[]), (0, -1, 0, true));
    // 256 rungs, with a swap that waits for the last
    let many = hand([&small, &small], 30.0, &[5.0; 256]);
    let mut q = Sequence { w: run.first(), open: None, waited: false };
    run.open(&mut q);
    for place in 0..256 {
        if place == 7 {
            run.swap(&mut q);
        }
        run.step(&mut q, &many);
    }
    if (q.w.image, q.w.walking, q.w.waiting) != (1, 0, 0) {
        wrong("a walk of 256 rungs", &format!("{:?}", q.w));
    }
}
