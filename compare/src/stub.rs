//! The boundary answered by a second copy of the Rust, for trying the driver without the library
//! (feature `stub`). A driver whose oracle was changed in one place must notice it here.

use std::cell::RefCell;
use std::rc::Rc;

use crate::ffi::{
    Airtime, Ceiling, Census, Decision, Dials, Distance, Edges, Fault, Fields, Image, Nearest,
    Report, Station, Step, Text, Tidiness, VERSION, Walk, WalkAnswer,
};
use crate::original::adapter::{self, Prepared};
use crate::original::{
    airtime, amendment, distance, edition, expect, nearest, report, sixty, walk,
};
use crate::texts::Line;

thread_local! {
    static LAST: RefCell<Option<(Vec<u8>, Rc<Prepared>)>> = const { RefCell::new(None) };
}

fn prepared(image: &[u8]) -> Rc<Prepared> {
    LAST.with_borrow_mut(|last| match last {
        Some((bytes, made)) if bytes == image => made.clone(),
        _ => {
            let made = Rc::new(adapter::prepare(image).expect("the Rust's check"));
            *last = Some((image.to_vec(), made.clone()));
            made
        }
    })
}

unsafe fn slice<'a, T>(at: *const T, n: usize) -> &'a [T] {
    unsafe { std::slice::from_raw_parts(at, n) }
}

#[unsafe(no_mangle)]
extern "C" fn pamuklid_version() -> u32 {
    VERSION
}

#[unsafe(no_mangle)]
extern "C" fn pamuklid_check(image: *const u8, n: usize) -> u8 {
    prepared(unsafe { slice(image, n) }).refusal
}

#[unsafe(no_mangle)]
extern "C" fn pamuklid_fault_of(image: *const u8, n: usize) -> Fault {
    let image = unsafe { slice(image, n) };
    expect::fault(image, prepared(image).refusal)
}

#[unsafe(no_mangle)]
extern "C" fn pamuklid_tidy(image: *const u8, n: usize) -> Tidiness {
    let (tidy, refusal) = adapter::tidy(&prepared(unsafe { slice(image, n) }));
    Tidiness { tidy, refusal }
}

#[unsafe(no_mangle)]
extern "C" fn pamuklid_report_of(
    image: *const u8,
    n: usize,
    license: u8,
    rows: *mut u8,
    rows_len: usize,
) -> Report {
    let p = prepared(unsafe { slice(image, n) });
    let lent = unsafe { std::slice::from_raw_parts_mut(rows, rows_len) };
    let refusal = report::refusal(p.refusal, license);
    let Some(table) = p.table.as_ref().filter(|_| refusal == 0) else {
        return Report { count: 0, refusal };
    };
    let rows = report::rows(table, license);
    if report::too_few(rows.len(), lent.len()) {
        return Report { count: 0, refusal: 25 };
    }
    for (place, row) in lent.chunks_mut(report::ROW).zip(&rows) {
        place.copy_from_slice(&row.encode());
    }
    Report { count: rows.len() as u32, refusal: 0 }
}

#[unsafe(no_mangle)]
extern "C" fn pamuklid_fresh_2() -> Station {
    expect::FRESH
}

#[unsafe(no_mangle)]
extern "C" fn pamuklid_evaluate_2(
    s: Station,
    kind: u8,
    direction: u8,
    e: Edges,
    image: *const u8,
    n: usize,
) -> Decision {
    let p = prepared(unsafe { slice(image, n) });
    sixty::evaluate(&p, &s, kind, direction, &e).expect("the Rust's words").0
}

#[unsafe(no_mangle)]
extern "C" fn pamuklid_unmeasured_2(s: Station, image: *const u8, n: usize) -> Decision {
    let p = prepared(unsafe { slice(image, n) });
    adapter::unmeasured(&p, &s).expect("the Rust's words")
}

#[unsafe(no_mangle)]
extern "C" fn pamuklid_ceiling_of_2(
    s: Station,
    direction: u8,
    ordinary: Edges,
    floor: Edges,
    image: *const u8,
    n: usize,
    rungs: *const f64,
    figures: usize,
    floors: *const u8,
    floor_count: usize,
) -> Ceiling {
    let p = prepared(unsafe { slice(image, n) });
    let (rungs, floors) = unsafe { (slice(rungs, figures), slice(floors, floor_count)) };
    let (c, _) = sixty::ceiling(&p, &s, direction, &ordinary, &floor, rungs, floors)
        .expect("the Rust's words");
    flat(&c)
}

fn flat(c: &adapter::Ceiling) -> Ceiling {
    Ceiling {
        limit: c.limit_or_none(),
        rung: c.rung_number(),
        limit_known: u8::from(c.limit.is_some()),
        refusal: c.refusal,
    }
}

#[unsafe(no_mangle)]
extern "C" fn pamuklid_safe_dials_2(
    s: Station,
    direction: u8,
    e: Edges,
    image: *const u8,
    n: usize,
    rows: *mut u8,
    rows_len: usize,
) -> Dials {
    let p = prepared(unsafe { slice(image, n) });
    let rows = unsafe { std::slice::from_raw_parts_mut(rows, rows_len) };
    let (refusal, bytes) = adapter::safe_dials(&p, &s, direction, &e).expect("the Rust's words");
    let refusal = match refusal {
        0 if expect::rows_refused(bytes.len() / 36, rows.len()) => 23,
        other => other,
    };
    if refusal != 0 {
        return Dials { count: 0, refusal };
    }
    rows[..bytes.len()].copy_from_slice(&bytes);
    Dials { count: (bytes.len() / 36) as u32, refusal: 0 }
}

#[unsafe(no_mangle)]
extern "C" fn pamuklid_nearest_dial(
    s: Station,
    direction: u8,
    e: Edges,
    image: *const u8,
    n: usize,
) -> Nearest {
    // of watts nothing hangs here, and the Rust has those of edition 1
    let mut image = unsafe { slice(image, n) }.to_vec();
    if prepared(&image).refusal == 0 && crate::image::front_of(&image) == 80 {
        let (channel, segment) = crate::image::FIXED_WATTS;
        image[64..72].copy_from_slice(&channel.to_bits().to_le_bytes());
        image[72..80].copy_from_slice(&segment.to_bits().to_le_bytes());
    }
    let p = prepared(&image);
    nearest::flat(nearest::answer(&p, &s, direction, &e).expect("the Rust's words"))
}

#[unsafe(no_mangle)]
extern "C" fn pamuklid_distance_of(
    dial: f64,
    flags: u8,
    channel_band: u8,
    count: u32,
    rows: *const u8,
    rows_len: usize,
) -> Distance {
    let asked = distance::Asked { dial, flags, channel_band, count };
    distance::flat(asked.answer(unsafe { slice(rows, rows_len) }))
}

fn written(call: usize, hz: f64, text: *mut u8, room: usize) -> Text {
    if expect::no_text_of(hz) {
        return Text { length: 0, refusal: 21 };
    }
    let mut line = Line::EMPTY;
    adapter::text(call, hz, &mut line).expect("a text of at most 24 bytes");
    let bytes = line.text();
    if expect::text_refused(bytes.len(), room) {
        return Text { length: 0, refusal: 24 };
    }
    let lent = unsafe { std::slice::from_raw_parts_mut(text, room) };
    lent[..bytes.len()].copy_from_slice(bytes);
    Text { length: bytes.len() as u32, refusal: 0 }
}

#[unsafe(no_mangle)]
extern "C" fn pamuklid_text_at(hz: f64, text: *mut u8, room: usize) -> Text {
    written(0, hz, text, room)
}

#[unsafe(no_mangle)]
extern "C" fn pamuklid_text_khz(hz: f64, text: *mut u8, room: usize) -> Text {
    written(1, hz, text, room)
}

#[unsafe(no_mangle)]
extern "C" fn pamuklid_text_hertz(hz: f64, text: *mut u8, room: usize) -> Text {
    written(2, hz, text, room)
}

#[unsafe(no_mangle)]
extern "C" fn pamuklid_census_of(
    s: Station,
    kind: u8,
    direction: u8,
    e: Edges,
    image: *const u8,
    n: usize,
    first: i64,
    last: i64,
) -> Census {
    let refused = |refusal| Census { counts: [0; 25], refusal };
    let there = |dial_hz| Station { dial_hz, dial_known: 1, ..s };
    if s.dial_known > 1 {
        return refused(20);
    }
    let front = pamuklid_evaluate_2(there(0.0), kind, direction, e, image, n).refusal;
    if front != 0 {
        return refused(front);
    }
    if first > last || last.checked_sub(first).is_none_or(|more| more >= 1_000_000) {
        return refused(33);
    }
    if first < -(1 << 40) || last > 1 << 40 {
        return refused(34);
    }
    let mut out = refused(0);
    for dial in first..=last {
        let d = pamuklid_evaluate_2(there(dial as f64), kind, direction, e, image, n);
        out.counts[usize::from(d.code) - 1] += 1;
    }
    out
}

#[unsafe(no_mangle)]
extern "C" fn pamuklid_airtime_of(
    starts: *const u64,
    start_count: usize,
    bands: *const u8,
    band_count: usize,
    seconds: *const u16,
    second_count: usize,
    totals: *mut u64,
    total_count: usize,
) -> Airtime {
    let starts = unsafe { slice(starts, start_count) };
    let (bands, seconds) = unsafe { (slice(bands, band_count), slice(seconds, second_count)) };
    let lent = unsafe { std::slice::from_raw_parts_mut(totals, total_count) };
    let refusal = airtime::refusal(starts, bands.len(), seconds.len(), lent.len());
    if refusal != 0 {
        return Airtime { count: 0, refusal };
    }
    for (i, place) in lent.iter_mut().enumerate() {
        *place = airtime::total(starts, bands, seconds, i);
    }
    Airtime { count: starts.len() as u32, refusal: 0 }
}

/// The image that a call gives, in the bytes lent for it.
fn given(want: edition::Given, out: *mut u8, room: usize) -> Image {
    match want {
        Ok(image) => {
            let lent = unsafe { std::slice::from_raw_parts_mut(out, room) };
            lent[..image.len()].copy_from_slice(&image);
            Image { length: image.len() as u32, refusal: 0 }
        }
        Err(refusal) => Image { length: 0, refusal },
    }
}

#[unsafe(no_mangle)]
extern "C" fn pamuklid_raise(image: *const u8, n: usize, out: *mut u8, room: usize) -> Image {
    let image = unsafe { slice(image, n) };
    given(edition::raised(image, prepared(image).refusal, room), out, room)
}

#[unsafe(no_mangle)]
extern "C" fn pamuklid_lower(image: *const u8, n: usize, out: *mut u8, room: usize) -> Image {
    let image = unsafe { slice(image, n) };
    given(edition::lowered(image, prepared(image).refusal, room), out, room)
}

#[unsafe(no_mangle)]
extern "C" fn pamuklid_write(
    fields: Fields,
    figures: *const f64,
    figure_count: usize,
    codes: *const u8,
    code_count: usize,
    rules: *const u16,
    rule_count: usize,
    out: *mut u8,
    room: usize,
) -> Image {
    let parts = edition::Parts {
        fields,
        figures: unsafe { slice(figures, figure_count) }.to_vec(),
        codes: unsafe { slice(codes, code_count) }.to_vec(),
        rules: unsafe { slice(rules, rule_count) }.to_vec(),
    };
    given(edition::written(&parts, room).expect("the Rust's check"), out, room)
}

#[unsafe(no_mangle)]
extern "C" fn pamuklid_amend(
    image: *const u8,
    n: usize,
    list: *const u8,
    list_len: usize,
    day: u32,
    out: *mut u8,
    room: usize,
) -> Image {
    let (base, list) = unsafe { (slice(image, n), slice(list, list_len)) };
    let want = amendment::amended(base, prepared(base).refusal, list, day, room);
    given(want.expect("the Rust's check"), out, room)
}

#[unsafe(no_mangle)]
extern "C" fn pamuklid_walk_first() -> Walk {
    walk::FIRST
}

fn walked(w: Walk, next: Result<Walk, u8>) -> WalkAnswer {
    match next {
        Ok(state) => WalkAnswer { state, refusal: 0 },
        Err(refusal) => WalkAnswer { state: w, refusal },
    }
}

#[unsafe(no_mangle)]
extern "C" fn pamuklid_walk_swap(w: Walk) -> WalkAnswer {
    walked(w, walk::swapped(&w))
}

#[unsafe(no_mangle)]
extern "C" fn pamuklid_walk_open(w: Walk) -> WalkAnswer {
    walked(w, walk::opened(&w))
}

#[unsafe(no_mangle)]
extern "C" fn pamuklid_walk_step(
    w: Walk,
    s: Station,
    direction: u8,
    ordinary: Edges,
    floor: Edges,
    image_0: *const u8,
    n_0: usize,
    image_1: *const u8,
    n_1: usize,
    rungs: *const f64,
    figures: usize,
    floors: *const u8,
    floor_count: usize,
) -> Step {
    let images = unsafe { [prepared(slice(image_0, n_0)), prepared(slice(image_1, n_1))] };
    let (rungs, floors) = unsafe { (slice(rungs, figures), slice(floors, floor_count)) };
    let images = images.each_ref().map(|p| &**p);
    let lent = walk::Lent { images, s, direction, ordinary, floor, rungs, floors };
    let t = walk::stepped(&w, &lent).expect("the Rust's words");
    Step { ceiling: flat(&t.ceiling), state: t.state, over: t.end.is_some().into() }
}
