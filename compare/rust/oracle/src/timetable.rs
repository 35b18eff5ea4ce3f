//! The program `timetable`: which works are foreseen, read from document 02, R-14, and the instants at which they stop.
//! The reference has no timetable. The instants are those that its own clock visits.

use std::io::{self, Write};

use crate::input::Input;
use crate::network::hydraulic_in_force;
use crate::progress::Progress;
use crate::project::Project;
use crate::second_clock::{has_tanks, is_on_fast_path};

const DAY: usize = 86_400;

/// One instant a line, then the count of steps; `none` alone where the works is not foreseen. What stands behind the
/// image is not read.
pub fn tabulate(bytes: &[u8], out: &mut impl Write) -> io::Result<()> {
    let project = match Input::new(bytes).project() {
        Ok(project) => project,
        Err(fault) => return writeln!(out, "refused {fault}"),
    };
    if !is_foreseen(&project) {
        return writeln!(out, "none");
    }
    write_run(&project, out)
}

/// A run from its start to the duration. Steps alone are enough: no other call moves the clock, and without tanks no
/// head, flow or status enters the length of a step.
fn write_run(project: &Project, out: &mut impl Write) -> io::Result<()> {
    let mut progress = Progress::start(project);
    while progress.instant() < progress.duration() {
        progress.step();
        writeln!(out, "{}", progress.instant())?;
    }
    writeln!(out, "steps {}", progress.count())
}

fn is_foreseen(project: &Project) -> bool {
    !has_tanks(project) && !is_on_fast_path(project) && is_hydraulic_long(project) && is_one_within_a_day(project)
}

/// "the hydraulic timestep in force is at least the report or the pattern timestep"
fn is_hydraulic_long(project: &Project) -> bool {
    let hydraulic = hydraulic_in_force(project.options.hydraulic_timestep);
    timesteps(project).iter().any(|&seconds| hydraulic >= seconds)
}

/// "the report or the pattern timestep is at most 86,400"
fn is_one_within_a_day(project: &Project) -> bool {
    timesteps(project).iter().any(|&seconds| seconds <= DAY)
}

/// Report and pattern.
fn timesteps(project: &Project) -> [usize; 2] {
    [project.options.report_timestep as usize, project.options.pattern_timestep as usize]
}
