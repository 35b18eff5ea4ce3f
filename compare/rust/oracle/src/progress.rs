//! A project under way: the reference's functions behind document 01's calls, and the loads, which are ours.

use std::io::{self, Write};

use epanet_rs::model::network::Network;
use epanet_rs::model::node::NodeType;
use epanet_rs::model::rule::RuleCondition;
use epanet_rs::simulation::Simulation;
use epanet_rs::solver::hydraulicsolver::{HydraulicSolver, doorway};
use epanet_rs::solver::state::SolverState;

use crate::image::Fault;
use crate::load::{self, Load, MOST_FLOW_OR_HEAD};
use crate::network::{self, STATUSES};
use crate::project::{Project, Sort};
use crate::second_clock;

const NO_SUCH_PREMISE: Fault = 9;
const STARTED: &str = "a run begins with a state";
const SECONDS_OF_DAY: usize = 24 * 3600;

/// What the state keeps to along every list of calls (document 01, number 10).
const MOST_DEMAND: f64 = 1e20;
const MOST_SETTING: f64 = 1e6;

pub struct Progress {
    simulation: Simulation,
    solver: HydraulicSolver,
    premises: Vec<RuleCondition>,
    junctions: usize,
    has_second_clock: bool,
    /// How often the clock moved. The reference keeps no such count.
    count: usize,
}

impl Progress {
    pub fn start(project: &Project) -> Self {
        let mut simulation = Simulation::new(network::network(project));
        let mut state = SolverState::new_with_initial_values(&simulation.network);
        put_pump_settings(project, &mut state);
        simulation.state = Some(state);
        simulation.skip_timesteps = project.options.skip_timesteps;
        Progress {
            simulation,
            solver: doorway::empty_solver(),
            premises: project.premises.iter().map(network::premise).collect(),
            junctions: project.junctions(),
            has_second_clock: second_clock::serves(project),
            count: 0,
        }
    }

    fn state(&self) -> &SolverState {
        self.simulation.state.as_ref().expect(STARTED)
    }

    pub fn duration(&self) -> usize {
        self.simulation.network.options.time_options.duration
    }

    pub fn instant(&self) -> usize {
        self.simulation.time
    }

    pub fn count(&self) -> usize {
        self.count
    }

    pub fn links(&self) -> usize {
        self.simulation.network.links.len()
    }

    pub fn junctions(&self) -> usize {
        self.junctions
    }

    pub fn patterns(&mut self) {
        let time = self.instant();
        let (network, state) = parts(&mut self.simulation);
        state.apply_patterns(network, time);
    }

    pub fn controls(&mut self) {
        let time = self.instant();
        let (network, state) = parts(&mut self.simulation);
        state.apply_controls(network, time);
    }

    pub fn load(&mut self, words: &[u32]) -> Result<(), Fault> {
        let load = load::decode(words, self.links(), self.junctions)?;
        self.put_load(load);
        Ok(())
    }

    /// Flows of all links, heads of junctions, and each tank's net inflow as its demand. Other demands stay.
    fn put_load(&mut self, load: Load) {
        let (network, state) = parts(&mut self.simulation);
        state.flows = load.flows;
        let mut heads = load.heads.into_iter();
        for (index, node) in network.nodes.iter().enumerate() {
            match node.node_type {
                NodeType::Junction(_) => state.heads[index] = heads.next().expect("a head for each junction"),
                NodeType::Tank(_) => state.demands[index] = 0.0,
                NodeType::Reservoir(_) => {}
            }
        }
        for (link, flow) in network.links.iter().zip(&state.flows) {
            if matches!(network.nodes[link.end_node].node_type, NodeType::Tank(_)) {
                state.demands[link.end_node] += flow;
            }
            if matches!(network.nodes[link.start_node].node_type, NodeType::Tank(_)) {
                state.demands[link.start_node] -= flow;
            }
        }
    }

    pub fn close(&mut self) {
        let (network, state) = parts(&mut self.simulation);
        doorway::update_tank_links(&self.solver, network, state);
    }

    /// Closing by the table of the tanks' links: it "gives the same bits", so it is the reference's own.
    pub fn close_by_table(&mut self) {
        self.close();
    }

    pub fn pressure(&mut self) -> bool {
        let (network, state) = parts(&mut self.simulation);
        doorway::apply_pressure_controls(&self.solver, network, state)
    }

    pub fn premise(&self, number: u32) -> Result<bool, Fault> {
        let premise = self.premises.get(number as usize).ok_or(NO_SUCH_PREMISE)?;
        let network = &self.simulation.network;
        let time = self.instant();
        let clock_time = (time + network.options.time_options.start_clocktime) % SECONDS_OF_DAY;
        Ok(premise.is_active(self.state(), network, time, clock_time))
    }

    pub fn step(&mut self) -> usize {
        let before = self.instant();
        let length = self.simulation.next_hydraulic_timestep();
        if self.instant() != before {
            self.count += 1;
        }
        length
    }

    /// The second clock's step: where it serves the project, "it answers and leaves what the driver's step does".
    pub fn slow(&mut self) -> Result<usize, Fault> {
        if self.has_second_clock { Ok(self.step()) } else { Err(second_clock::NOT_SERVED) }
    }

    /// The whole state in words of 16 hexadecimal digits, a space before each.
    pub fn write_state(&self, out: &mut impl Write) -> io::Result<()> {
        let state = self.state();
        write_word(out, self.instant() as u64)?;
        write_word(out, self.count as u64)?;
        for index in 0..state.heads.len() {
            write_word(out, state.heads[index].to_bits())?;
            write_word(out, state.demands[index].to_bits())?;
            write_word(out, state.demand_flows[index].to_bits())?;
        }
        for index in 0..state.flows.len() {
            write_word(out, state.flows[index].to_bits())?;
            let status = STATUSES.iter().position(|status| *status == state.statuses[index]);
            write_word(out, status.expect("one of the statuses") as u64)?;
            write_word(out, state.settings[index].to_bits())?;
        }
        Ok(())
    }

    /// Stops the run where a state breaks what document 01 says holds along every list of calls from a start: there
    /// only loads, premises and the second clock's steps can be refused.
    pub fn check_state(&self) {
        let state = self.state();
        let within = |numbers: &[f64], most: f64| numbers.iter().all(|number| number.abs() <= most);
        assert!(within(&state.heads, MOST_FLOW_OR_HEAD), "a head is beyond its limit");
        assert!(within(&state.flows, MOST_FLOW_OR_HEAD), "a flow is beyond its limit");
        assert!(within(&state.demands, MOST_DEMAND), "a demand is beyond its limit");
        assert!(within(&state.demand_flows, MOST_DEMAND), "a demand flow is beyond its limit");
        assert!(within(&state.settings, MOST_SETTING), "a setting is beyond its limit");
        assert!(self.instant() <= self.duration(), "the instant is past the duration");
        assert!(self.count <= self.instant(), "the count is past the instant");
    }
}

/// The network, and the state that a call changes.
fn parts(simulation: &mut Simulation) -> (&Network, &mut SolverState) {
    (&simulation.network, simulation.state.as_mut().expect(STARTED))
}

fn write_word(out: &mut impl Write, word: u64) -> io::Result<()> {
    write!(out, " {word:016x}")
}

/// A pump whose speed is not its setting (see `network::speed_and_curve_flow`) starts with the image's setting.
fn put_pump_settings(project: &Project, state: &mut SolverState) {
    for (index, link) in project.links.iter().enumerate() {
        if link.sort == Sort::Pump {
            state.settings[index] = link.setting;
        }
    }
}
