/// Appended to the copy of this file by the comparison's build: a child module may call what is private above.
pub mod doorway {
    use super::*;
    use crate::error::InputError;
    use crate::model::link::Link;

    /// A solver with nothing in it. Closing and the pressure pass are its methods and read none of it.
    pub fn empty_solver() -> HydraulicSolver {
        HydraulicSolver {
            node_to_unknown: Vec::new(),
            sparsity_pattern: Default::default(),
            symbolic_llt: Default::default(),
            perm_fwd: Vec::new(),
            jac: Default::default(),
            csc_indices: Vec::new(),
            node_rows: Vec::new(),
            topology_version: 0,
        }
    }

    pub fn update_tank_links(solver: &HydraulicSolver, network: &Network, state: &mut SolverState) {
        solver.update_tank_links(network, state)
    }

    pub fn apply_pressure_controls(solver: &HydraulicSolver, network: &Network, state: &mut SolverState) -> bool {
        solver.apply_pressure_controls(network, state)
    }

    pub fn add_link(network: &mut Network, link: Link) -> Result<(), InputError> {
        network.add_link(link)
    }
}
