//! Images written from fields and records, raised and lowered, which the Rust does not do: by the time of the
//! image check on the same image, and beside plain Rust that puts the same bytes there and checks nothing.

use std::hint::black_box;

use crate::ffi::{self, Fields};
use crate::table::Table;
use crate::{HF, LARGEST, differ, least, line, stack};

/// Edition 2 has this many bytes more in front.
const WATTS: usize = 16;

/// A table in both editions, and what the first is written from.
struct Given {
    name: &'static str,
    fields: Fields,
    figures: Vec<f64>,
    codes: Vec<u8>,
    rules: Vec<u16>,
    first: Vec<u8>,
    second: Vec<u8>,
}

/// Bytes at a place, which moves on behind them.
fn put(out: &mut [u8], at: &mut usize, bytes: &[u8]) {
    out[*at..*at + bytes.len()].copy_from_slice(bytes);
    *at += bytes.len();
}

/// The image of edition 1 of these fields and records: its length.
#[inline(never)]
fn encode(f: &Fields, figures: &[f64], codes: &[u8], rules: &[u16], out: &mut [u8]) -> usize {
    let mut at = 0;
    let limits =
        [f.data_limit, f.elsewhere_limit, f.channel_width, f.carrier_offset, f.carrier_tolerance];
    for x in limits {
        put(out, &mut at, &x.to_le_bytes());
    }
    let block = [f.region, f.reading, f.flags, f.channel_band, f.sideband, f.emissions];
    put(out, &mut at, &block);
    for rule in [
        f.data_rule,
        f.elsewhere_rule,
        f.automatic_rule,
        f.channels_rule,
        f.emissions_rule,
        f.privileges_rule,
    ] {
        put(out, &mut at, &rule.to_le_bytes());
    }
    put(out, &mut at, &[0; 6]);
    let records = figures.chunks_exact(3).zip(codes.chunks_exact(4)).zip(rules.chunks_exact(2));
    let places = out[at..].chunks_exact_mut(32);
    for (place, ((figures, codes), rules)) in places.zip(records) {
        place[..8].copy_from_slice(&figures[0].to_le_bytes());
        place[8..16].copy_from_slice(&figures[1].to_le_bytes());
        place[16..24].copy_from_slice(&figures[2].to_le_bytes());
        place[24..28].copy_from_slice(codes);
        place[28..30].copy_from_slice(&rules[0].to_le_bytes());
        place[30..].copy_from_slice(&rules[1].to_le_bytes());
    }
    at += 8 * codes.len();
    let distance = at as u32;
    for count in f.counts {
        put(out, &mut at, &count.to_le_bytes());
    }
    put(out, &mut at, &distance.to_le_bytes());
    put(out, &mut at, &[1, 0]);
    put(out, &mut at, b"EDGE");
    at
}

/// Edition 2 of an image of edition 1, with 100 and 9.15.
#[inline(never)]
fn up(image: &[u8], out: &mut [u8]) -> usize {
    let (n, end) = (image.len() + WATTS, image.len() - 10);
    out[..64].copy_from_slice(&image[..64]);
    out[64..72].copy_from_slice(&100f64.to_le_bytes());
    out[72..80].copy_from_slice(&9.15f64.to_le_bytes());
    out[80..n - 10].copy_from_slice(&image[64..end]);
    out[n - 10..n - 6].copy_from_slice(&(n as u32 - 28).to_le_bytes());
    out[n - 6..n].copy_from_slice(b"\x02\x00EDGE");
    n
}

/// The other way.
#[inline(never)]
fn down(image: &[u8], out: &mut [u8]) -> usize {
    let (n, end) = (image.len() - WATTS, image.len() - 10);
    out[..64].copy_from_slice(&image[..64]);
    out[64..n - 10].copy_from_slice(&image[80..end]);
    out[n - 10..n - 6].copy_from_slice(&(n as u32 - 28).to_le_bytes());
    out[n - 6..n].copy_from_slice(b"\x01\x00EDGE");
    n
}

/// With every byte seen to: both sides, and past the image.
fn given(name: &'static str, table: &Table) -> Given {
    let (fields, figures, codes, rules) = table.given();
    let first = table.image();
    let mut out = vec![7; first.len() + WATTS + 1];
    let seen = |what: &str, out: &[u8], length: usize, want: &[u8]| {
        if length != want.len() || out[..length] != *want || out[length..].iter().any(|&b| b != 7) {
            differ(&format!("{name}: {what}, {length} bytes"));
        }
    };
    let length = ffi::write(fields, &figures, &codes, &rules, &mut out).length;
    seen("written", &out, length as usize, &first);
    out.fill(7);
    let length = encode(&fields, &figures, &codes, &rules, &mut out);
    seen("encoded", &out, length, &first);
    out.fill(7);
    let length = up(&first, &mut out);
    let second = out[..length].to_vec();
    out.fill(7);
    let length = ffi::raise(&first, &mut out).length;
    seen("raised", &out, length as usize, &second);
    out.fill(7);
    let length = ffi::lower(&second, &mut out).length;
    seen("lowered", &out, length as usize, &first);
    out.fill(7);
    let length = down(&second, &mut out);
    seen("plainly lowered", &out, length, &first);
    Given { name, fields, figures, codes, rules, first, second }
}

/// A call by the image check, and by its plain Rust.
fn rows(
    show: bool,
    rounds: usize,
    what: &str,
    image: &[u8],
    call: &mut dyn FnMut(),
    plain: &mut dyn FnMut(),
) {
    let by_check = least(rounds, call, &mut || {
        black_box(ffi::check(black_box(image)));
    });
    line(show, &format!("  {what}, by the check"), by_check, None);
    line(show, &format!("  {what}, by plain Rust"), least(rounds, call, plain), None);
}

fn tables() -> [Given; 2] {
    [given("HF table", &Table::made(HF)), given("largest image", &Table::made(LARGEST))]
}

pub fn timed(show: bool, rounds: usize) {
    println!("\nimages written, raised and lowered");
    for g in tables() {
        let mut out = vec![0; g.second.len()];
        let mut plain = out.clone();
        let (f, c, r) = (&g.figures, &g.codes, &g.rules);
        rows(
            show,
            rounds,
            &format!("{}, written", g.name),
            &g.first,
            &mut || {
                black_box(ffi::write(black_box(g.fields), black_box(f), c, r, &mut out));
            },
            &mut || {
                black_box(encode(black_box(&g.fields), black_box(f), c, r, &mut plain));
            },
        );
        rows(
            show,
            rounds,
            &format!("{}, raised", g.name),
            &g.first,
            &mut || {
                black_box(ffi::raise(black_box(&g.first), &mut out));
            },
            &mut || {
                black_box(up(black_box(&g.first), &mut plain));
            },
        );
        rows(
            show,
            rounds,
            &format!("{}, lowered", g.name),
            &g.second,
            &mut || {
                black_box(ffi::lower(black_box(&g.second), &mut out));
            },
            &mut || {
                black_box(down(black_box(&g.second), &mut plain));
            },
        );
    }
}

pub fn stacks() {
    println!("\nstack of writing and converting, the driver's frame included: bytes");
    for g in tables() {
        let mut out = vec![0; g.second.len()];
        let written = stack::depth(|| {
            black_box(ffi::write(g.fields, &g.figures, &g.codes, &g.rules, &mut out));
        });
        let raised = stack::depth(|| {
            black_box(ffi::raise(&g.first, &mut out));
        });
        let lowered = stack::depth(|| {
            black_box(ffi::lower(&g.second, &mut out));
        });
        println!("  {:<14} written {written:>6}  raised {raised:>6}  lowered {lowered:>6}", g.name);
    }
}
