//! A project in the reference's own types, made by its own functions where the text has them.
//!
//! Units are US and CFS, in which the reference's conversions divide by 1.0, so that every bit of the image arrives.
//! Only a link's diameter would be converted (inches to feet); links are made here and added as they are.

use epanet_rs::model::control::{Control, ControlCondition};
use epanet_rs::model::curve::{HeadCurve, HeadCurveStatistics, HeadCurveType};
use epanet_rs::model::demand::Demand;
use epanet_rs::model::link::{Link, LinkStatus, LinkType};
use epanet_rs::model::network::{JunctionData, Network, PatternData, ReservoirData, TankData};
use epanet_rs::model::options::{DemandModel, HeadlossFormula, SimulationOptions, TimeOptions};
use epanet_rs::model::pipe::Pipe;
use epanet_rs::model::pump::Pump;
use epanet_rs::model::rule::{
    ComparisonOperator, ConditionValue, LinkAttribute, NodeAttribute, RuleCondition, RuleConditionOperator,
    RuleConditionTarget, SystemAttribute, TankAttribute,
};
use epanet_rs::model::valve::{Valve, ValveType};
use epanet_rs::solver::hydraulicsolver::doorway;

use crate::project::{self, Condition, Node, PatternIndex, Project, Sort, Value};

/// The statuses in the reference's order.
pub const STATUSES: [LinkStatus; 10] = [
    LinkStatus::Xhead,
    LinkStatus::TempClosed,
    LinkStatus::Closed,
    LinkStatus::Open,
    LinkStatus::Active,
    LinkStatus::Xflow,
    LinkStatus::XFCV,
    LinkStatus::XPressure,
    LinkStatus::FixedOpen,
    LinkStatus::FixedClosed,
];

/// No pattern may be named "1", on which the reference falls back where no default is set.
fn pattern_id(index: usize) -> Box<str> {
    format!("pattern {index}").into()
}

fn node_id(index: usize) -> Box<str> {
    format!("node {index}").into()
}

fn link_id(index: usize) -> Box<str> {
    format!("link {index}").into()
}

fn pattern_name(index: PatternIndex) -> Option<Box<str>> {
    index.map(pattern_id)
}

fn status(code: u32) -> LinkStatus {
    STATUSES[code as usize]
}

pub fn network(project: &Project) -> Network {
    let mut network = Network { options: options(project), ..Network::default() };
    for (index, multipliers) in project.patterns.iter().enumerate() {
        let data = PatternData { multipliers: multipliers.clone() };
        network.add_pattern(&pattern_id(index), &data).expect("a new pattern");
    }
    for (index, node) in project.nodes.iter().enumerate() {
        add_node(&mut network, index, node);
    }
    for (index, link) in project.links.iter().enumerate() {
        doorway::add_link(&mut network, link_of(index, link)).expect("a new link");
    }
    network.controls = project.controls.iter().map(control).collect();
    network
}

fn options(project: &Project) -> SimulationOptions {
    let options = &project.options;
    SimulationOptions {
        demand_multiplier: options.demand_multiplier,
        pattern: options.default_pattern.checked_sub(1).map(|index| pattern_id(index as usize)),
        time_options: TimeOptions {
            duration: options.duration as usize,
            hydraulic_timestep: hydraulic_in_force(options.hydraulic_timestep),
            report_timestep: options.report_timestep as usize,
            pattern_timestep: options.pattern_timestep as usize,
            pattern_start: options.pattern_start as usize,
            start_clocktime: options.start_clock as usize,
        },
        demand_model: if options.pressure_driven { DemandModel::PDA } else { DemandModel::DDA },
        ..SimulationOptions::default()
    }
}

/// Document 02, R-7: "comparison runs give the Rust 3,600" where the field is 0.
pub fn hydraulic_in_force(hydraulic_timestep: u32) -> usize {
    if hydraulic_timestep == 0 { 3600 } else { hydraulic_timestep as usize }
}

fn add_node(network: &mut Network, index: usize, node: &Node) {
    let id = node_id(index);
    let added = match node {
        Node::Reservoir { elevation, pattern } => network.add_reservoir(
            &id,
            &ReservoirData { elevation: *elevation, head_pattern: pattern_name(*pattern), coordinates: None },
        ),
        Node::Tank(tank) => network.add_tank(&id, &tank_data(tank)),
        Node::Junction { elevation, demands, .. } => network.add_junction(
            &id,
            &JunctionData {
                elevation: *elevation,
                demands: demands.iter().map(demand).collect(),
                emitter_coefficient: 0.0,
                coordinates: None,
            },
        ),
    };
    added.expect("a new node");
    if let Node::Junction { disabled, .. } = node {
        network.nodes[index].disabled = *disabled;
    }
}

fn tank_data(tank: &project::Tank) -> TankData {
    TankData {
        elevation: tank.elevation,
        initial_level: tank.initial,
        min_level: tank.least,
        max_level: tank.greatest,
        diameter: tank.diameter,
        overflow: tank.overflow,
        ..TankData::default()
    }
}

fn demand(demand: &project::Demand) -> Demand {
    Demand { basedemand: demand.base, pattern: pattern_name(demand.pattern), pattern_index: None, name: None }
}

fn link_of(index: usize, link: &project::Link) -> Link {
    Link {
        id: link_id(index),
        link_type: match link.sort {
            Sort::Pipe => LinkType::Pipe(pipe(link.size)),
            Sort::Pump => LinkType::Pump(pump(link)),
            Sort::Valve => LinkType::Valve(valve(link)),
        },
        start_node_id: node_id(link.start),
        end_node_id: node_id(link.end),
        initial_status: status(link.status),
        vertices: None,
        start_node: link.start,
        end_node: link.end,
    }
}

/// Length and roughness go into the resistance only, which no comparison looks at.
fn pipe(diameter: f64) -> Pipe {
    Pipe {
        diameter,
        length: 1.0,
        roughness: 1.0,
        minor_loss: 0.0,
        check_valve: false,
        headloss_formula: HeadlossFormula::HazenWilliams,
    }
}

fn valve(link: &project::Link) -> Valve {
    Valve {
        diameter: link.size,
        setting: link.setting,
        curve_id: None,
        valve_type: ValveType::TCV,
        minor_loss: 0.0,
        gpv_curve: None,
        pcv_curve: None,
    }
}

/// The reference works a pump's initial flow out as its curve's flow times its speed, which is also its initial
/// setting; the image gives both flow and setting. Where no curve's flow gives the image's bits back, the speed is 1.0
/// and `progress` puts the setting into the starting state: nothing else reads the speed.
pub fn speed_and_curve_flow(flow: f64, setting: f64) -> (f64, f64) {
    let curve_flow = flow / setting;
    let comes_back = (curve_flow * setting).to_bits() == flow.to_bits();
    if setting != 0.0 && comes_back { (setting, curve_flow) } else { (1.0, flow) }
}

fn pump(link: &project::Link) -> Pump {
    let (speed, curve_flow) = speed_and_curve_flow(link.size, link.setting);
    let statistics =
        HeadCurveStatistics { h_max: 1.0, h_shutoff: 1.0, q_max: 1.0, q_initial: curve_flow, r: 1.0, n: 1.0 };
    let curve = HeadCurve { flows: vec![1.0], heads: vec![1.0], curve_type: HeadCurveType::SinglePoint, statistics };
    Pump { speed, head_curve_id: None, power: 0.0, head_curve: Some(curve) }
}

fn control(control: &project::Control) -> Control {
    Control {
        condition: match control.condition {
            Condition::HighPressure { node, target } => ControlCondition::HighPressure { node_index: node, target },
            Condition::LowPressure { node, target } => ControlCondition::LowPressure { node_index: node, target },
            Condition::HighLevel { node, target } => ControlCondition::HighLevel { tank_index: node, target },
            Condition::LowLevel { node, target } => ControlCondition::LowLevel { tank_index: node, target },
            Condition::Time { seconds } => ControlCondition::Time { seconds: seconds as usize },
            Condition::ClockTime { seconds } => ControlCondition::ClockTime { seconds: seconds as usize },
        },
        link_id: link_id(control.link),
        setting: control.setting,
        status: control.status.map(status),
    }
}

pub fn premise(premise: &project::Premise) -> RuleCondition {
    RuleCondition {
        operator: if premise.and { RuleConditionOperator::And } else { RuleConditionOperator::Or },
        target: target(premise.attribute, premise.index),
        comparison: comparison(premise.comparison),
        value: match premise.value {
            Value::Number(number) => ConditionValue::Number(number),
            Value::Status(code) => ConditionValue::Status(status(code)),
            Value::Time(seconds) => ConditionValue::Time(seconds as usize),
        },
    }
}

fn comparison(code: u32) -> ComparisonOperator {
    match code {
        0 => ComparisonOperator::Eq,
        1 => ComparisonOperator::Ne,
        2 => ComparisonOperator::Gt,
        3 => ComparisonOperator::Lt,
        4 => ComparisonOperator::Ge,
        _ => ComparisonOperator::Le,
    }
}

fn target(attribute: u32, index: usize) -> RuleConditionTarget {
    let node = |attribute| RuleConditionTarget::Node { id: node_id(index), attribute };
    let tank = |attribute| RuleConditionTarget::Tank { id: node_id(index), attribute };
    let link = |attribute| RuleConditionTarget::Link { id: link_id(index), attribute };
    let system = |attribute| RuleConditionTarget::System { attribute };
    match attribute {
        0 => node(NodeAttribute::Demand),
        1 => node(NodeAttribute::Head),
        2 => node(NodeAttribute::Pressure),
        3 => tank(TankAttribute::Level),
        4 => tank(TankAttribute::FillTime),
        5 => tank(TankAttribute::DrainTime),
        6 => link(LinkAttribute::Flow),
        7 => link(LinkAttribute::Status),
        8 => link(LinkAttribute::Setting),
        9 => system(SystemAttribute::Demand),
        10 => system(SystemAttribute::Time),
        _ => system(SystemAttribute::ClockTime),
    }
}
