//! Document 02, Paper 5: tables of caps. Which pass, and random ones: those that pass and are near the store's values, and those that do not pass
//! or are not 16 caps long.

use crate::random::Random;
use crate::store::{Buffers, Caps, OUR_CAPS, TABLE_CAPS};

/// Whether a table may be set up or loaded: its first cap is 1 or more, and the caps rise strictly.
pub fn passes(caps: &[u32]) -> bool {
    caps.first().map_or(false, |first| *first >= 1) && not_rising(caps).is_empty()
}

/// The places of the caps that are not above the one before them.
pub fn not_rising(caps: &[u32]) -> Vec<usize> {
    (1..caps.len()).filter(|place| caps[*place] <= caps[*place - 1]).collect()
}

/// The one place of 16 whose cap is not above the one before it, where nothing else keeps the table from passing.
pub fn unfit_place(caps: &[u32]) -> Option<usize> {
    match not_rising(caps)[..] {
        [place] if caps.len() == TABLE_CAPS && caps[0] > 0 => Some(place),
        _ => None,
    }
}

/// Whether nothing but a first cap of 0 keeps the table from passing.
pub fn only_first_cap_is_0(caps: &[u32]) -> bool {
    caps.len() == TABLE_CAPS && caps[0] == 0 && not_rising(caps).is_empty()
}

/// The highest value of each class in the store, 0 where it has none.
pub fn floors(buffers: &Buffers) -> Caps {
    let mut floors = [0; TABLE_CAPS];
    for (class, value) in buffers.cells() {
        if let Some(floor) = floors.get_mut(class as usize) {
            *floor = value.max(*floor);
        }
    }
    floors
}

/// A table that passes. No value is above its cap, as long as a table can be so.
pub fn fitting(random: &Random, floors: &Caps) -> Vec<u32> {
    let reach = random.pick(&[1, 2, 4, 20, 1 << 20, u32::MAX as usize]);
    let mut last = 0;
    let cap = |(class, floor): (usize, &u32)| {
        let top = u32::MAX - (TABLE_CAPS - 1 - class) as u32;
        let low = (last + 1).max(*floor).min(top);
        last = low + (random.below(reach) as u32).min(top - low);
        last
    };
    floors.iter().enumerate().map(cap).collect()
}

/// A table that passes, with a value above its cap where one can be: one right above it.
fn too_low(random: &Random, floors: &Caps) -> Vec<u32> {
    let mut caps = fitting(random, floors);
    let enough = |class: &usize| floors[*class] as usize >= *class + 2;
    let classes: Vec<usize> = (0..TABLE_CAPS).filter(enough).collect();
    if classes.is_empty() {
        return caps;
    }
    let class = random.pick(&classes);
    for below in 0..=class {
        caps[below] = caps[below].min(floors[class] - 1 - (class - below) as u32);
    }
    caps
}

/// A table that does not pass, mostly for one reason alone.
fn unfit(random: &Random, floors: &Caps) -> Vec<u32> {
    let mut caps = fitting(random, floors);
    let place = random.pick(&[1, random.range(1, TABLE_CAPS - 1), TABLE_CAPS - 1]);
    match random.weighted(&[35, 25, 25, 8, 7]) {
        0 => caps[place] = caps[place - 1],
        1 => caps[place] = random.below(caps[place - 1] as usize) as u32,
        2 => caps[0] = 0,
        3 => caps.iter_mut().for_each(|cap| *cap = random.word()),
        _ => caps.fill(random.pick(&[0, 1, random.word(), u32::MAX])),
    }
    caps
}

/// A table of another length, passing or not.
fn misfit(random: &Random, floors: &Caps) -> Vec<u32> {
    let mut caps = if random.percent(60) { fitting(random, floors) } else { unfit(random, floors) };
    let next = caps[TABLE_CAPS - 1].wrapping_add(1);
    caps.resize(random.pick(&[0, 1, 15, 15, 17, 17, 32]), next);
    caps
}

/// Any table, of 16 caps but in so many of a hundred.
pub fn any(random: &Random, floors: &Caps, misfits: usize) -> Vec<u32> {
    if random.percent(misfits) {
        return misfit(random, floors);
    }
    match random.weighted(&[50, 18, 24, 8]) {
        0 => fitting(random, floors),
        1 => too_low(random, floors),
        2 => unfit(random, floors),
        _ => OUR_CAPS.to_vec(),
    }
}

/// A table to load: near the store's values, or near the table in force with one cap changed.
pub fn to_load(random: &Random, buffers: &Buffers) -> Vec<u32> {
    let floors = floors(buffers);
    if random.percent(80) || buffers.caps.is_empty() {
        return any(random, &floors, 6);
    }
    let mut new_caps = buffers.caps.clone();
    let place = random.below(new_caps.len());
    new_caps[place] = random.pick(&[new_caps[place].wrapping_add(1), new_caps[place].wrapping_sub(1), new_caps[place]]);
    new_caps
}
