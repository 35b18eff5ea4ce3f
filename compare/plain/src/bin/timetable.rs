//! The timetable of document 02, R-14, in plain Rust: an image on standard input, and on standard output the instants at
//! which a works without tanks stops, one a line, then their count; or `none` where they are not known beforehand.

// The driver's modules, of which this program needs a part.
#[path = "../image.rs"]
mod image;
#[expect(dead_code)]
#[path = "../input.rs"]
mod input;
#[expect(dead_code)]
#[path = "../listing.rs"]
mod listing;
#[expect(dead_code)]
#[path = "../project.rs"]
mod project;

use std::io::{self, Read, Write};

use input::Input;
use listing::Listing;
use project::{Condition, DAY, Node, Project, Times};

/// Behind every duration.
const NEVER: u32 = u32::MAX;

fn main() -> io::Result<()> {
    let mut bytes = Vec::new();
    io::stdin().lock().read_to_end(&mut bytes)?;
    let mut lines = Listing::new(io::stdout().lock());
    match Input::new(&bytes).image().and_then(image::decode) {
        Ok(project) if are_foreseen(&project) => tabulate(&mut lines, &project)?,
        Ok(_) => lines.none()?,
        Err(fault) => lines.refusal(fault)?,
    }
    lines.end()
}

fn tabulate(lines: &mut Listing<impl Write>, project: &Project) -> io::Result<()> {
    let mut steps = 0;
    for instant in Stops::new(project) {
        lines.stop(instant)?;
        steps += 1;
    }
    lines.count(steps)
}

/// No tanks, not the fast path, and the shorter of report and pattern timestep no longer than the hydraulic one and a day.
fn are_foreseen(project: &Project) -> bool {
    let Times { report_timestep, pattern_timestep, hydraulic_timestep, .. } = project.times;
    let has_tanks = project.nodes.iter().any(|node| matches!(node, Node::Tank(_)));
    let is_fast = project.skip_timesteps && project.controls.is_empty();
    !has_tanks && !is_fast && report_timestep.min(pattern_timestep) <= hydraulic_timestep.min(DAY)
}

/// The stops of a run, one after the other.
struct Stops {
    instant: u32,
    duration: u32,
    causes: [Recurring; 4],
}

impl Stops {
    fn new(project: &Project) -> Self {
        let Times { duration, report_timestep, pattern_timestep, start_clock, .. } = project.times;
        let (mut instants, mut of_day) = (Vec::new(), Vec::new());
        for control in &project.controls {
            match control.condition {
                Condition::Time { seconds } => instants.push(seconds),
                Condition::Clock { seconds } => of_day.push((DAY - start_clock + seconds) % DAY),
                _ => {}
            }
        }
        instants.push(NEVER); // they do not come again
        let causes = [(vec![0], report_timestep), (vec![0], pattern_timestep), (of_day, DAY), (instants, 0)];
        Stops { instant: 0, duration, causes: causes.map(|(offsets, period)| Recurring::new(offsets, period)) }
    }
}

impl Iterator for Stops {
    type Item = u32;

    fn next(&mut self) -> Option<u32> {
        if self.instant == self.duration {
            return None;
        }
        self.instant = self.causes.iter().fold(self.duration, |first, cause| first.min(cause.next));
        for cause in &mut self.causes {
            cause.pass(self.instant);
        }
        Some(self.instant)
    }
}

/// Instants that come again: in each period those at so many seconds from its start.
struct Recurring {
    offsets: Vec<u32>,
    period: u32,
    /// The start of the present period, and which of the offsets is next.
    start: u32,
    at: usize,
    next: u32,
}

impl Recurring {
    /// Those above 0. Sorted once, so that a run need not look through the controls at every stop.
    fn new(mut offsets: Vec<u32>, period: u32) -> Self {
        offsets.sort_unstable();
        offsets.dedup();
        let next = *offsets.first().unwrap_or(&NEVER);
        let mut recurring = Recurring { offsets, period, start: 0, at: 0, next };
        recurring.pass(0);
        recurring
    }

    fn pass(&mut self, instant: u32) {
        if self.next != instant {
            return;
        }
        self.at += 1;
        if self.at == self.offsets.len() {
            self.at = 0;
            self.start += self.period;
        }
        self.next = self.start + self.offsets[self.at];
    }
}
