//! The tables that a run steps over: the project's, sorted by what each part of a step goes through.

use std::f64::consts::PI;
use std::ops::Range;

use crate::project::{self, Action, Condition, Link, Node, Project, Times};

/// No candidate. Seconds beyond the longest timestep never set a step's length, so that 32 bits hold them all.
pub const NEVER: u32 = u32::MAX;

pub struct Network {
    pub times: Times,
    /// Neither controls nor tanks, and the skip flag: a step is the report timestep.
    pub is_fast: bool,
    pub pressure_driven: bool,
    pub demand_multiplier: f64,
    /// The last is 1.0 alone, for demands without a pattern.
    pub patterns: Vec<Vec<f64>>,
    /// Those with a pattern.
    pub reservoirs: Vec<Reservoir>,
    pub tanks: Vec<Tank>,
    /// Node by node.
    pub is_tank: Vec<bool>,
    /// Node by node its entries in `demands`: none for tanks, reservoirs and disabled junctions.
    pub demands_of: Vec<Range<usize>>,
    pub demands: Vec<Demand>,
    /// Their nodes.
    pub junctions: Vec<usize>,
    pub initial_heads: Vec<f64>,
    pub links: Vec<Link>,
    pub controls: Vec<Control>,
}

pub struct Reservoir {
    pub node: usize,
    pub elevation: f64,
    pub pattern: usize,
}

pub struct Demand {
    pub base: f64,
    pub pattern: usize,
}

pub struct Tank {
    pub node: usize,
    pub elevation: f64,
    pub least: f64,
    pub greatest: f64,
    pub diameter: f64,
    /// Square feet.
    pub surface: f64,
    pub least_volume: f64,
    pub greatest_volume: f64,
    /// The head at and above which links close. An overflow tank has none.
    pub full_head: f64,
    pub empty_head: f64,
    pub links_in: Vec<usize>,
    pub links_out: Vec<usize>,
}

pub struct Control {
    pub trigger: Trigger,
    pub link: usize,
    pub action: Action,
}

/// A condition, with the tank and the volume that it waits for.
pub enum Trigger {
    /// A pressure, or a level of no tank.
    Never,
    HighLevel {
        tank: usize,
        target: f64,
        volume: Option<f64>,
    },
    LowLevel {
        tank: usize,
        target: f64,
        volume: Option<f64>,
    },
    Time {
        seconds: u32,
    },
    Clock {
        seconds: u32,
    },
}

impl Network {
    pub fn new(project: Project) -> Self {
        let without_pattern = project.patterns.len();
        let mut patterns = project.patterns;
        patterns.push(vec![1.0]);
        let mut network = Network {
            times: project.times,
            is_fast: false,
            pressure_driven: project.pressure_driven,
            demand_multiplier: project.demand_multiplier,
            patterns,
            reservoirs: Vec::new(),
            tanks: Vec::new(),
            is_tank: Vec::with_capacity(project.nodes.len()),
            demands_of: Vec::with_capacity(project.nodes.len()),
            demands: Vec::new(),
            junctions: Vec::new(),
            initial_heads: Vec::with_capacity(project.nodes.len()),
            links: project.links,
            controls: Vec::new(),
        };
        let default_pattern = project.default_pattern.unwrap_or(without_pattern);
        for (index, node) in project.nodes.iter().enumerate() {
            network.add_node(index, node, default_pattern);
        }
        network.connect_tanks();
        network.controls = project.controls.iter().map(|control| network.control(control)).collect();
        network.is_fast = project.skip_timesteps && network.controls.is_empty() && network.tanks.is_empty();
        network
    }

    fn add_node(&mut self, index: usize, node: &Node, default_pattern: usize) {
        let first_demand = self.demands.len();
        let mut head = 0.0;
        match node {
            Node::Reservoir { elevation, pattern } => {
                head = *elevation;
                let with_pattern = pattern.map(|pattern| Reservoir { node: index, elevation: *elevation, pattern });
                self.reservoirs.extend(with_pattern);
            }
            Node::Tank(tank) => {
                head = tank.elevation + tank.initial;
                self.tanks.push(Tank::new(index, tank));
            }
            Node::Junction { disabled, demands } => {
                self.junctions.push(index);
                if !disabled {
                    let pattern = |demand: &project::Demand| demand.pattern.unwrap_or(default_pattern);
                    let demands = demands.iter().map(|demand| Demand { base: demand.base, pattern: pattern(demand) });
                    self.demands.extend(demands);
                }
            }
        }
        self.is_tank.push(matches!(node, Node::Tank(_)));
        self.initial_heads.push(head);
        self.demands_of.push(first_demand..self.demands.len());
    }

    fn connect_tanks(&mut self) {
        for tank in &mut self.tanks {
            let links = || self.links.iter().enumerate();
            tank.links_in = links().filter(|(_, link)| link.end == tank.node).map(|(index, _)| index).collect();
            tank.links_out = links().filter(|(_, link)| link.start == tank.node).map(|(index, _)| index).collect();
        }
    }

    fn control(&self, control: &project::Control) -> Control {
        let trigger = match control.condition {
            Condition::Pressure => Trigger::Never,
            Condition::HighLevel { node, target } => match self.tank_at(node) {
                Some(tank) => Trigger::HighLevel { tank, target, volume: self.tanks[tank].reachable(target) },
                None => Trigger::Never,
            },
            Condition::LowLevel { node, target } => match self.tank_at(node) {
                Some(tank) => Trigger::LowLevel { tank, target, volume: self.tanks[tank].reachable(target) },
                None => Trigger::Never,
            },
            Condition::Time { seconds } => Trigger::Time { seconds },
            Condition::Clock { seconds } => Trigger::Clock { seconds },
        };
        Control { trigger, link: control.link, action: control.action }
    }

    fn tank_at(&self, node: usize) -> Option<usize> {
        self.tanks.iter().position(|tank| tank.node == node)
    }
}

impl Tank {
    fn new(node: usize, tank: &project::Tank) -> Self {
        Tank {
            node,
            elevation: tank.elevation,
            least: tank.least,
            greatest: tank.greatest,
            diameter: tank.diameter,
            surface: PI * tank.diameter * tank.diameter / 4.0,
            least_volume: volume(tank.diameter, tank.least),
            greatest_volume: volume(tank.diameter, tank.greatest),
            full_head: if tank.overflow { f64::INFINITY } else { tank.elevation + tank.greatest },
            empty_head: tank.elevation + tank.least,
            links_in: Vec::new(),
            links_out: Vec::new(),
        }
    }

    /// The volume at a level that the tank can have.
    fn reachable(&self, level: f64) -> Option<f64> {
        (self.least..=self.greatest).contains(&level).then(|| self.volume(level))
    }

    pub fn volume(&self, level: f64) -> f64 {
        volume(self.diameter, level)
    }

    /// The seconds until a full or an empty tank at this net inflow.
    pub fn time_to_fill_or_drain(&self, level: f64, inflow: f64) -> u32 {
        if inflow == 0.0 {
            return NEVER;
        }
        let volume = self.volume(level);
        time_to_reach(self.greatest_volume - volume, inflow).min(time_to_reach(self.least_volume - volume, inflow))
    }

    /// The head after so many cubic feet have come in.
    pub fn head_after(&self, head: f64, change: f64) -> f64 {
        let level = head - self.elevation + change / self.surface;
        self.elevation + level.clamp(self.least, self.greatest)
    }
}

/// Cubic feet. The order of the products is part of the answer.
fn volume(diameter: f64, level: f64) -> f64 {
    if level < 0.0 { 0.0 } else { level * PI * diameter * diameter / 4.0 }
}

/// The seconds, to the nearest, in which an inflow makes up for a gap in volume: none where the gap is small.
pub fn time_to_reach(gap: f64, inflow: f64) -> u32 {
    const SMALL_GAP: f64 = 0.5; // cubic feet
    if gap.abs() < SMALL_GAP {
        0
    } else if (gap > 0.0 && inflow > 0.0) || (gap < 0.0 && inflow < 0.0) {
        (gap / inflow).round() as u32
    } else {
        NEVER
    }
}
