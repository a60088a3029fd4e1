//! Walks on the practice table, a rung a step, with swaps between: the answers and the states.

use pamuklid::{
    ceiling, raw, Code, Control, Direction, Edges, License, Policy, Refusal, Sideband, Station,
    Step, Walk,
};

static IMAGE: &[u8] = include_bytes!("../../../tools/reference/practice.bin");

/// At 14,100,000 Hz: 500, 1,000 and 2,900 Hz wide; the practice table has room for 2,800.
const RUNGS: [Edges; 3] =
    [Edges::both(1_250.0, 1_750.0), Edges::both(1_000.0, 2_000.0), Edges::both(0.0, 2_900.0)];
const CONTROL: Edges = RUNGS[0];
const NOTHING: Edges = Edges::both(0.0, 0.0);

fn station() -> Station {
    Station {
        policy: Policy::Rules,
        control: Some(Control::Local),
        license: Some(License::General),
        sideband: Some(Sideband::Upper),
        dial_hz: Some(14_100_000.0),
        ..Station::fresh()
    }
}

/// The practice table with another general width limit.
fn limited(limit: f64) -> Vec<u8> {
    [&limit.to_bits().to_le_bytes(), &IMAGE[8..]].concat()
}

fn step(walk: Walk, images: [&[u8]; 2], rungs: &[Edges]) -> Result<Step, Refusal> {
    let floors = vec![false; rungs.len()];
    walk.step(&station(), Direction::Originate, &CONTROL, &CONTROL, images, rungs, &floors)
}

/// The rung, the code of the limit, and whether it is over.
fn said(step: &Step) -> (Option<u16>, Option<Code>, bool) {
    (step.ceiling.rung, step.ceiling.limit.map(|d| d.code), step.over)
}

/// Image, open, waiting, place.
fn stands(walk: Walk) -> (usize, bool, bool, usize) {
    (walk.image(), walk.is_open(), walk.is_waiting(), walk.place())
}

#[test]
fn a_walk() {
    let narrow = limited(600.0);
    let images = [IMAGE, &narrow[..]];
    let walk = Walk::first();
    assert_eq!(stands(walk), (0, false, false, 0));
    let walk = walk.open().unwrap();
    assert_eq!(stands(walk), (0, true, false, 0));
    let one = step(walk, images, &RUNGS).unwrap();
    assert_eq!((said(&one), stands(one.state)), ((Some(0), None, false), (0, true, false, 1)));
    // a table is loaded: this walk finishes under the one it began with
    let walk = one.state.swap().unwrap();
    assert_eq!(stands(walk), (0, true, true, 1));
    let two = step(walk, images, &RUNGS).unwrap();
    assert_eq!((said(&two), stands(two.state)), ((Some(1), None, false), (0, true, true, 2)));
    let three = step(two.state, images, &RUNGS).unwrap();
    assert_eq!(said(&three), (Some(1), Some(Code::TooWide), true));
    assert_eq!(stands(three.state), (1, false, false, 0));
    // the next begins under the new one, and ends at its second rung
    let walk = three.state.open().unwrap();
    let one = step(walk, images, &RUNGS).unwrap();
    assert_eq!((said(&one), stands(one.state)), ((Some(0), None, false), (1, true, false, 1)));
    let two = step(one.state, images, &RUNGS).unwrap();
    assert_eq!(said(&two), (Some(0), Some(Code::TooWide), true));
    assert_eq!(stands(two.state), (1, false, false, 0));
}

/// Over with the last rung, not a step later; a swap that waits takes force with it.
#[test]
fn the_last_rung() {
    let walk = Walk::first().open().unwrap().swap().unwrap();
    let one = step(walk, [IMAGE, &[]], &RUNGS[..1]).unwrap();
    assert_eq!((said(&one), stands(one.state)), ((Some(0), None, true), (1, false, false, 0)));
}

/// With no rung at its place a walk is over, and nothing is judged.
#[test]
fn no_rung() {
    let open = Walk::first().open().unwrap();
    let none = step(open, [IMAGE, &[]], &[]).unwrap();
    assert_eq!((said(&none), stands(none.state)), ((None, None, true), (0, false, false, 0)));
    let one = step(open, [IMAGE, &[]], &RUNGS).unwrap();
    for rungs in [&RUNGS[..0], &RUNGS[..1]] {
        let none = step(one.state.swap().unwrap(), [IMAGE, &[]], rungs).unwrap();
        assert_eq!(
            (said(&none), stands(none.state)),
            ((Some(0), None, true), (1, false, false, 0))
        );
    }
}

/// A step goes by what it is lent and by what was judged before: after a rung of 500 Hz under 14,100,000 one of
/// 500 Hz at 3,000 makes 2,250, and at 4,000 3,250.
#[test]
fn other_rungs() {
    let open = Walk::first().open().unwrap();
    let one = step(open, [IMAGE, &[]], &RUNGS).unwrap();
    for (low, code) in [(3_000.0, None), (4_000.0, Some(Code::TooWide))] {
        let rungs = [NOTHING, Edges::both(low, low + 500.0)];
        let two = step(one.state, [IMAGE, &[]], &rungs).unwrap();
        assert_eq!(said(&two).1, code);
        if let Some(limit) = two.ceiling.limit {
            assert_eq!((limit.audio.low_hz, limit.audio.high_hz), (1_250.0, 4_500.0));
        }
    }
}

/// The last step answers as one call of the ceiling does, whatever swaps came between.
#[test]
fn as_the_ceiling() {
    let narrow = limited(600.0);
    let images = [IMAGE, &narrow[..]];
    let long: Vec<Edges> =
        (0..256).map(|i| Edges::both(1_250.0, 1_750.0 + 8.0 * f64::from(i))).collect();
    for rungs in [&RUNGS[..0], &RUNGS[..1], &RUNGS[..2], &RUNGS[..], &long[..], &long[..100]] {
        for begins in [0, 1] {
            for swapped in 0..4 {
                let mut walk = Walk::first();
                if begins == 1 {
                    walk = walk.swap().unwrap();
                }
                walk = walk.open().unwrap();
                let mut steps = 0;
                let last = loop {
                    if steps == swapped {
                        walk = walk.swap().unwrap();
                    }
                    let next = step(walk, images, rungs).unwrap();
                    (walk, steps) = (next.state, steps + 1);
                    // so far: the ceiling of the rungs up to this one
                    let so_far = &rungs[..steps.min(rungs.len())];
                    assert_eq!(next.ceiling, climbed(images[begins], so_far));
                    if next.over {
                        break next;
                    }
                };
                assert_eq!(last.ceiling, climbed(images[begins], rungs));
                let ends = if swapped < steps { 1 - begins } else { begins };
                assert_eq!(stands(walk), (ends, false, false, 0));
            }
        }
    }
}

fn climbed(image: &[u8], rungs: &[Edges]) -> pamuklid::Ceiling {
    let floors = vec![false; rungs.len()];
    ceiling(&station(), Direction::Originate, &CONTROL, &CONTROL, image, rungs, &floors).unwrap()
}

#[test]
fn swaps() {
    let walk = Walk::first();
    assert_eq!(walk.swap().map(stands), Ok((1, false, false, 0)));
    assert_eq!(walk.swap().and_then(Walk::swap).map(stands), Ok((0, false, false, 0)));
    assert_eq!(walk.swap().and_then(Walk::swap), Ok(walk));
    let waits = walk.open().unwrap().swap().unwrap();
    assert_eq!(waits.swap(), Err(Refusal::SecondSwap));
    assert_eq!(waits.open(), Err(Refusal::Walk));
    // in force: a swap is free again
    let over = step(waits, [IMAGE, &[]], &[]).unwrap().state;
    assert_eq!(over.swap().map(stands), Ok((0, false, false, 0)));
    assert_eq!(over.open().and_then(Walk::swap).map(stands), Ok((1, true, true, 0)));
}

/// A refusal leaves the walk open, and it goes on from there.
#[test]
fn refusals() {
    let open = Walk::first().open().unwrap();
    let one = step(open, [IMAGE, &[]], &RUNGS).unwrap().state;
    assert_eq!(step(Walk::first(), [IMAGE, IMAGE], &RUNGS), Err(Refusal::Walk));
    assert_eq!(step(one, [&[], IMAGE], &RUNGS), Err(Refusal::NoImage));
    assert_eq!(step(one, [&[], IMAGE], &[]), Err(Refusal::NoImage), "a walk is not ended so");
    assert_eq!(step(one, [&IMAGE[1..], IMAGE], &RUNGS), Err(Refusal::Counts));
    assert_eq!(step(one, [&limited(0.0), IMAGE], &RUNGS), Err(Refusal::GeneralLimit));
    // every rung is looked at, not the one at the place alone
    let far = [RUNGS[0], RUNGS[1], Edges::both(0.0, f64::INFINITY)];
    assert_eq!(step(one, [IMAGE, &[]], &far), Err(Refusal::SignalEdge));
    assert_eq!(step(one, [IMAGE, &[]], &[RUNGS[0]; 257]), Err(Refusal::Rungs));
    assert_eq!(said(&step(one, [IMAGE, &[]], &RUNGS).unwrap()), (Some(1), None, false));
}

/// Under another policy no image is read.
#[test]
fn without_rules() {
    let free = Station { policy: Policy::NoRules, ..station() };
    let open = Walk::first().open().unwrap();
    let one =
        open.step(&free, Direction::Originate, &CONTROL, &CONTROL, [&[], &[]], &RUNGS, &[false; 3]);
    assert_eq!(said(&one.unwrap()), (Some(0), None, false));
}

/// The floor control frame counts where the rung's mark says so.
#[test]
fn floors() {
    let wide = Edges::both(0.0, 2_900.0);
    let open = Walk::first().open().unwrap();
    let climb = |walk: Walk, floors: &[bool; 2]| {
        let rungs = [CONTROL, CONTROL];
        walk.step(&station(), Direction::Originate, &CONTROL, &wide, [IMAGE, &[]], &rungs, floors)
    };
    assert_eq!(said(&climb(open, &[true, false]).unwrap()), (None, Some(Code::TooWide), true));
    let one = climb(open, &[false, true]).unwrap();
    assert_eq!(said(&one), (Some(0), None, false));
    assert_eq!(
        said(&climb(one.state, &[false, true]).unwrap()),
        (Some(0), Some(Code::TooWide), true)
    );
}

// ------------------------------------------------------------------------------ the bare calls

const RESTING: raw::Walk =
    raw::Walk { occupied: NOTHING, place: 0, image: 0, waiting: 0, walking: 0 };
const OPEN: raw::Walk = raw::Walk { walking: 1, ..RESTING };

/// The bits, so that a NaN is itself.
fn bits(w: &raw::Walk) -> ([u64; 4], [u32; 4]) {
    let Edges { power_low, power_high, spectral_low, spectral_high } = w.occupied;
    let edges = [power_low, power_high, spectral_low, spectral_high].map(f64::to_bits);
    (edges, [w.place, w.image.into(), w.waiting.into(), w.walking.into()])
}

/// A step on the practice table as both images; with a refusal the state is as it came, and nothing is said.
fn bare(w: raw::Walk, direction: u8, rungs: &[f64]) -> raw::Step {
    let s = raw::Station {
        policy: 2,
        control: 0,
        license: 2,
        sideband: 0,
        dial_hz: 14_100_000.0,
        dial_known: 1,
        ..raw::fresh()
    };
    let floors = vec![0; rungs.len() / 4];
    let a = raw::walk_step(w, s, direction, CONTROL, CONTROL, IMAGE, IMAGE, rungs, &floors);
    if a.ceiling.refusal != 0 {
        assert_eq!((bits(&a.state), a.over), (bits(&w), 0));
        let c = &a.ceiling;
        assert_eq!((c.rung, c.limit_known, c.limit.verdict, c.limit.code), (-1, 0, 2, 0));
        assert_eq!(c.limit.refusal, c.refusal);
    }
    a
}

fn swap(w: raw::Walk) -> u8 {
    let a = raw::walk_swap(w);
    assert!(a.refusal == 0 || bits(&a.state) == bits(&w));
    a.refusal
}

fn open(w: raw::Walk) -> u8 {
    let a = raw::walk_open(w);
    assert!(a.refusal == 0 || bits(&a.state) == bits(&w));
    a.refusal
}

fn stepped(w: raw::Walk) -> u8 {
    bare(w, 0, raw::figures(&RUNGS)).ceiling.refusal
}

#[test]
fn states() {
    assert_eq!(bits(&raw::walk_first()), bits(&RESTING));
    assert_eq!(bits(&raw::walk_open(RESTING).state), bits(&OPEN));
    let one = bare(OPEN, 0, raw::figures(&RUNGS));
    let want = raw::Walk { occupied: RUNGS[0], place: 1, ..OPEN };
    assert_eq!((bits(&one.state), one.over, one.ceiling.refusal), (bits(&want), 0, 0));
    let two = bare(one.state, 0, raw::figures(&RUNGS));
    assert_eq!(bits(&two.state), bits(&raw::Walk { occupied: RUNGS[1], place: 2, ..OPEN }));
    let waits = raw::Walk { waiting: 1, ..two.state };
    assert_eq!(bits(&raw::walk_swap(two.state).state), bits(&waits));
    let three = bare(waits, 0, raw::figures(&RUNGS));
    assert_eq!((bits(&three.state), three.over), (bits(&raw::Walk { image: 1, ..RESTING }), 1));
}

/// 29 and 30 come before a state that no call gives, and before every other.
#[test]
fn before_all() {
    let odd = |w: raw::Walk| raw::Walk { image: 9, place: 999, ..w };
    for waiting in [RESTING, OPEN].map(|w| raw::Walk { waiting: 1, ..w }) {
        assert_eq!((swap(waiting), swap(odd(waiting))), (29, 29));
    }
    assert_eq!((open(OPEN), open(odd(OPEN))), (30, 30));
    let nan = [f64::NAN; 3];
    for w in [RESTING, odd(RESTING), raw::Walk { waiting: 9, ..RESTING }] {
        assert_eq!(stepped(w), 30);
        assert_eq!(bare(w, 9, &nan).ceiling.refusal, 30);
    }
    assert_eq!(bare(odd(OPEN), 9, &nan).ceiling.refusal, 20);
}

/// A state that no call gives meets 20, in every call; what is just inside goes on.
#[test]
fn made_up() {
    let walks = [
        raw::Walk { image: 2, ..RESTING },
        raw::Walk { image: 255, ..OPEN },
        raw::Walk { waiting: 2, ..RESTING },
        raw::Walk { waiting: 255, ..OPEN },
        raw::Walk { walking: 2, ..RESTING },
        raw::Walk { walking: 255, ..RESTING },
        raw::Walk { waiting: 1, ..RESTING },
        raw::Walk { place: 1, ..RESTING },
        raw::Walk { place: 256, ..OPEN },
        raw::Walk { place: u32::MAX, ..OPEN },
    ];
    for w in walks {
        assert_eq!(swap(w), if w.waiting == 1 { 29 } else { 20 }, "{w:?}");
        assert_eq!(open(w), if w.walking == 1 { 30 } else { 20 }, "{w:?}");
        assert_eq!(stepped(w), if w.walking == 0 { 30 } else { 20 }, "{w:?}");
    }
    // the edges of rungs judged; of none they are not looked at
    let far = 2f64.powi(40);
    let above = f64::from_bits(far.to_bits() + 1);
    for (x, refusal) in [
        (far, 0),
        (-far, 0),
        (above, 20),
        (-above, 20),
        (f64::INFINITY, 20),
        (f64::NEG_INFINITY, 20),
        (f64::NAN, 20),
    ] {
        for at in 0..4 {
            let mut figures = [0.0; 4];
            figures[at] = x;
            let [power_low, power_high, spectral_low, spectral_high] = figures;
            let occupied = Edges { power_low, power_high, spectral_low, spectral_high };
            for place in [1, 255] {
                let w = raw::Walk { occupied, place, ..OPEN };
                assert_eq!((swap(w), stepped(w)), (refusal, refusal), "{w:?}");
            }
            for w in [RESTING, OPEN] {
                let w = raw::Walk { occupied, ..w };
                assert_eq!(swap(w), 0);
                let clean = raw::Walk { occupied: NOTHING, ..raw::walk_swap(w).state };
                assert_eq!(bits(&raw::walk_swap(w).state), bits(&clean));
            }
            assert_eq!(stepped(raw::Walk { occupied, ..OPEN }), 0);
        }
    }
}

/// The last place that there can be.
#[test]
fn the_last_place() {
    let rungs = [CONTROL; 256];
    let w = raw::Walk { occupied: CONTROL, place: 255, ..OPEN };
    for (n, rung) in [(256, 255), (255, 254), (0, 254)] {
        let a = bare(w, 0, raw::figures(&rungs[..n]));
        assert_eq!((a.ceiling.rung, a.ceiling.limit_known, a.over), (rung, 0, 1), "{n}");
        assert_eq!(bits(&a.state), bits(&RESTING));
    }
}

/// The order of a step: 20 of the direction, 22, 15, 16 as the ceiling has them.
#[test]
fn after_the_state() {
    let nan = [f64::NAN; 3];
    assert_eq!(bare(OPEN, 4, &nan).ceiling.refusal, 20);
    assert_eq!(bare(OPEN, 0, &nan).ceiling.refusal, 15);
    assert_eq!(bare(OPEN, 0, &[0.0; 3]).ceiling.refusal, 16);
}
