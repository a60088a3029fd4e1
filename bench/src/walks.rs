//! A walk of fourteen rungs, a step at a time, by one ceiling of the same rungs: each step checks the image.

use std::hint::black_box;

use crate::ffi::{self, Station};
use crate::{RUNGS, Subject, differ, ladder, least, line, permitted, stack};

/// The whole walk; the rung that its last step answers, and how many steps it took.
fn walk(s: &Subject, station: Station, control: ffi::Edges, rungs: &[f64]) -> (i32, usize) {
    let floors = [0u8; RUNGS];
    let mut state = ffi::walk_open(ffi::walk_first()).state;
    let mut steps = 0;
    loop {
        let a = ffi::walk_step(state, station, 0, control, control, &s.image, &[], rungs, &floors);
        steps += 1;
        if a.over == 1 || a.ceiling.refusal != 0 {
            return (a.ceiling.rung, steps);
        }
        state = a.state;
    }
}

pub fn timed(show: bool, rounds: usize, subjects: &[&Subject]) {
    println!("\na walk of {RUNGS} rungs");
    for s in subjects {
        let c = permitted(s.bands);
        let (rungs, floors) = (ladder(), [0u8; RUNGS]);
        let one = ffi::ceiling(c.station, 0, c.edges, &s.image, &rungs, &floors);
        let (rung, steps) = walk(s, c.station, c.edges, &rungs);
        if rung != one.rung || steps != RUNGS {
            differ(&format!("{}: rung {rung} after {steps} steps, {} at once", s.name, one.rung));
        }
        let by_ceiling = least(
            rounds,
            &mut || {
                black_box(walk(s, black_box(c.station), c.edges, &rungs));
            },
            &mut || {
                black_box(ffi::ceiling(
                    black_box(c.station),
                    0,
                    c.edges,
                    &s.image,
                    &rungs,
                    &floors,
                ));
            },
        );
        line(show, &format!("  {}, by one ceiling", s.name), by_ceiling, None);
        let by_check = least(
            rounds,
            &mut || {
                black_box(walk(s, black_box(c.station), c.edges, &rungs));
            },
            &mut || {
                black_box(ffi::check(black_box(&s.image)));
            },
        );
        line(show, &format!("  {}, by one image check", s.name), by_check, None);
    }
}

pub fn stacks(s: &Subject) {
    let c = permitted(s.bands);
    let rungs = ladder();
    let taken = stack::depth(|| {
        black_box(walk(s, c.station, c.edges, &rungs));
    });
    println!(
        "\nstack of a walk's step on the {}, the driver's frame included: {taken} bytes",
        s.name
    );
}
