//! Stand-ins for what the published files call and do not hold: reading a text file, the solver's matrix and its table
//! of results. No comparison reaches them.

use crate::error::InputError;
use crate::model::network::Network;
use crate::model::units::{FlowUnits, UnitSystem};
use crate::solver::hydraulicsolver::HydraulicSolver;
use crate::solver::matrix::ResistanceCoefficients;
use crate::solver::state::SolverState;

impl Network {
    pub fn from_file(_path: &str) -> Result<Self, InputError> {
        unimplemented!()
    }
}

impl HydraulicSolver {
    pub(crate) fn assemble_jacobian(
        &self,
        _network: &Network,
        _state: &mut SolverState,
        _values: &mut [f64],
        _rhs: &mut [f64],
        _coefficients: &mut ResistanceCoefficients,
        _excess_flows: &[f64],
        _grounded_nodes: &[bool],
    ) {
        unimplemented!()
    }
}

pub struct SolverResult;

impl SolverResult {
    pub fn new(_links: usize, _nodes: usize, _report_steps: usize) -> Self {
        unimplemented!()
    }

    pub fn append(&mut self, _state: &SolverState, _step: usize) {
        unimplemented!()
    }

    pub fn convert_units(&mut self, _flow_units: &FlowUnits, _unit_system: &UnitSystem) {
        unimplemented!()
    }
}
