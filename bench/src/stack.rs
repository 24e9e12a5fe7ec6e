//! How deep the calls go into the stack: a thread's stack is painted, a call is
//! made, and the lowest byte that lost its paint is looked for.

use crate::figures::grouped;
use crate::inputs::Lent;
use crate::shapes::{self, Shape};
use std::hint::black_box;
use std::thread;

const STACK: usize = 1 << 20;
const PAINTED: usize = 512 << 10;
/// Room for the frames of the measurement itself.
const OWN: usize = 1024;
const PAINT: u8 = 0xa5;

/// The thread's stack is 1 MiB and hardly used, so that all of PAINTED below `top`
/// belongs to it and holds nothing.
#[inline(never)]
fn paint(top: usize) {
    for at in top - PAINTED..top - OWN {
        unsafe { (at as *mut u8).write_volatile(PAINT) };
    }
}

#[inline(never)]
fn lowest(top: usize) -> usize {
    let bytes = top - PAINTED..top - OWN;
    let changed = |&at: &usize| unsafe { (at as *const u8).read_volatile() } != PAINT;
    top - bytes.into_iter().find(changed).unwrap_or(top - OWN)
}

/// Bytes of stack that the call takes, to within a few hundred.
fn depth(lent: &Lent, call: fn(&mut Lent) -> bool) -> usize {
    let mut lent = lent.clone();
    let measure = move || {
        let here = black_box(0u8);
        let top = &raw const here as usize;
        paint(top);
        black_box(call(black_box(&mut lent)));
        lowest(top)
    };
    let thread = thread::Builder::new().stack_size(STACK).spawn(measure);
    thread.ok().and_then(|thread| thread.join().ok()).unwrap_or(0)
}

type Measured = (&'static str, fn(&mut Lent) -> bool);

const CALLS: [Measured; 14] = [
    ("validate", |l| birnsket::validate(&l.itinerary).is_ok()),
    ("climb", |l| birnsket::climb(&l.itinerary, &l.policy, l.number).is_ok()),
    ("sheet", |l| birnsket::sheet(&l.itinerary, &l.table, &mut l.sheet).is_ok()),
    ("step", |l| birnsket::step(&mut l.itinerary, l.number, l.partner).is_ok()),
    ("moves", |l| birnsket::moves(&l.itinerary, &mut l.list).is_ok()),
    ("run", |l| birnsket::run(&mut l.itinerary, &l.script, &mut l.answers).is_ok()),
    ("copy", |l| birnsket::copy(&mut l.itinerary, l.number).is_ok()),
    ("check", |l| birnsket::check(&l.itinerary, &l.policy, &l.table).is_ok()),
    ("join", |l| {
        let (members, policy, table, joined) = l.set();
        birnsket::join(members, policy, table, joined).is_ok()
    }),
    ("make", |l| birnsket::make(&l.itinerary, &l.policy, &mut l.table).is_ok()),
    ("verdict", |l| birnsket::verdict(&l.itinerary, &l.policy, &l.table).is_ok()),
    ("exposed", |l| birnsket::exposed(&l.itinerary, &l.policy, &l.table).is_ok()),
    ("row", |l| birnsket::row(&l.table, 1).is_empty()),
    ("screen", |l| birnsket::screen(&mut l.itinerary, &l.policy, &l.script, &mut l.answers).is_ok()),
];

/// What include/birnsket.h says is enough.
const PROMISED: usize = 32 << 10;

/// The largest depth of the call, and the input that took it, the first of several. What is
/// lent beside the itinerary is named where it makes a difference.
fn deepest(shapes: &[Shape], call: fn(&mut Lent) -> bool) -> (usize, String) {
    let taken: Vec<usize> = shapes.iter().map(|shape| depth(&shape.lent, call)).collect();
    let most = taken.iter().copied().max().unwrap_or(0);
    let Some(first) = taken.iter().position(|&bytes| bytes == most) else { return (0, String::new()) };
    let Shape { itinerary, rest, .. } = &shapes[first];
    let alike = |(shape, &bytes): (&Shape, &usize)| shape.itinerary != *itinerary || bytes == most;
    if shapes.iter().zip(&taken).all(alike) {
        (most, itinerary.clone())
    } else {
        (most, format!("{itinerary}; {rest}"))
    }
}

/// Prints the deepest of each call; says whether the header's promise is kept.
pub fn print() -> bool {
    let shapes = shapes::all();
    println!("| call | stack | deepest input |\n|---|---:|---|");
    let mut most = 0;
    for (name, call) in CALLS {
        let (taken, input) = deepest(&shapes, call);
        println!("| {name} | {} bytes | {input} |", grouped(taken as u64));
        most = most.max(taken);
    }
    let kept = most > OWN && most <= PROMISED;
    let word = if kept { "within" } else { "NOT within" };
    let (tried, promised) = (grouped(shapes.len() as u64), grouped(PROMISED as u64));
    println!("{tried} inputs tried; {word} the {promised} bytes of the header.");
    kept
}
