//! The program `levels_asked`: the reference's own times to a level, in the words of document 02, R-5.

use std::io::{self, Write};

use epanet_rs::model::tank::Tank;

use crate::input::{Input, numbers};

/// Elevation, least and greatest level, diameter, head, target, demand.
const NUMBERS: usize = 7;

/// A line for each question: the time to the target, the same as a level control has it, the time to full or empty.
pub fn answer(bytes: &[u8], out: &mut impl Write) -> io::Result<()> {
    let mut input = Input::new(bytes);
    for _ in 0..input.word().unwrap_or(0) {
        let Some(words) = input.words(2 * NUMBERS) else { break };
        answer_one(&numbers(&words), out)?;
    }
    Ok(())
}

/// A level is made of a head as `calculate_time_step` makes it, for tanks and for level controls.
fn answer_one(numbers: &[f64], out: &mut impl Write) -> io::Result<()> {
    let &[elevation, min_level, max_level, diameter, head, target, demand] = numbers else { unreachable!() };
    let tank = Tank {
        elevation,
        initial_level: 0.0,
        min_level,
        max_level,
        diameter,
        min_volume: 0.0,
        volume_curve_id: None,
        overflow: false,
        volume_curve: None,
        links_to: Vec::new(),
        links_from: Vec::new(),
    };
    let level = head - elevation;
    let to_target = reach(tank.time_to_reach_level(level, target, demand));
    let to_either = reach(tank.time_to_fill_or_drain(level, demand));
    writeln!(out, "{to_target} {to_target} {to_either}")
}

/// "The old 0 is arrived, MAX never, the rest the same seconds".
fn reach(seconds: usize) -> String {
    match seconds {
        0 => "arrived".into(),
        usize::MAX => "never".into(),
        _ => seconds.to_string(),
    }
}
