//! What a program that makes the calls is run on: the documents' examples and
//! exchanges, every refusal and every unfit state for each call, every kind of
//! index, long lines in all cuttings, and random histories.

mod beside;
mod course;
mod exchanges;
mod long;
mod members;
mod pokes;
mod racks;
mod ramps;
mod refusals;
mod unfit;

use super::{directed, histories, small};
use crate::operation::Operation;
use crate::random::Random;
use course::Course;

/// The calls of a random history.
const CALLS: usize = 40;

/// All of it, with so many random histories from a seed on.
pub fn operations(seed: u64, count: u64) -> Vec<Operation> {
    let mut course = fixed();
    for seed in seed..seed + count {
        course.history(&format!("small {seed}"), &small::history(seed));
        course.history(&format!("random {seed}"), &histories::history(seed, CALLS));
        pokes::history(&mut course, seed, |_| {});
    }
    course.operations()
}

/// One history in which the state is changed at random between the calls, and
/// what no call looks at too.
pub fn changes(seed: u64) -> Vec<Operation> {
    let mut course = Course::new();
    let mut random = Random::new(seed).branch();
    pokes::history(&mut course, seed, |course| course.scribble(&mut random));
    course.operations()
}

/// Lists of readings, which that program doesn't make.
pub fn lists() -> Vec<Operation> {
    let mut course = Course::new();
    racks::all(&mut course);
    course.operations()
}

/// What doesn't follow from a seed.
fn fixed() -> Course {
    let mut course = Course::new();
    exchanges::all(&mut course);
    ramps::all(&mut course);
    members::all(&mut course);
    for scene in directed::all() {
        course.history(scene.name, &scene.history);
    }
    refusals::all(&mut course);
    beside::all(&mut course);
    unfit::all(&mut course);
    long::all(&mut course);
    course
}
