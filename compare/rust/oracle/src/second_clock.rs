//! Which projects the second clock serves, read from document 02, R-10. The reference has no such clock.

use crate::image::Fault;
use crate::network::hydraulic_in_force;
use crate::project::{Node, Project};

pub const NOT_SERVED: Fault = 14;
const DAY: usize = 86_400;

/// "Refused: 14, a project with tanks, on the fast path, or with all three timesteps above 86,400": no call changes the
/// tables, so 14 is given in every state of a project or in none.
pub fn serves(project: &Project) -> bool {
    !has_tanks(project) && !is_on_fast_path(project) && !has_long_timesteps(project)
}

pub fn has_tanks(project: &Project) -> bool {
    project.nodes.iter().any(|node| matches!(node, Node::Tank(_)))
}

pub fn is_on_fast_path(project: &Project) -> bool {
    project.options.skip_timesteps && project.controls.is_empty() && !has_tanks(project)
}

fn has_long_timesteps(project: &Project) -> bool {
    let options = &project.options;
    let hydraulic = hydraulic_in_force(options.hydraulic_timestep);
    let timesteps = [options.report_timestep as usize, options.pattern_timestep as usize, hydraulic];
    timesteps.iter().all(|&seconds| seconds > DAY)
}
