//! What an accepted image says, in the image's own terms: indices, codes, seconds and feet.

/// An index to a pattern, where one is named.
pub type PatternIndex = Option<usize>;

#[derive(Default)]
pub struct Project {
    pub options: Options,
    pub patterns: Vec<Vec<f64>>,
    pub nodes: Vec<Node>,
    pub links: Vec<Link>,
    pub controls: Vec<Control>,
    pub premises: Vec<Premise>,
}

#[derive(Default)]
pub struct Options {
    pub duration: u32,
    pub hydraulic_timestep: u32,
    pub report_timestep: u32,
    pub pattern_timestep: u32,
    pub pattern_start: u32,
    pub start_clock: u32,
    pub skip_timesteps: bool,
    pub pressure_driven: bool,
    /// Left as its word, because it is judged after the last record.
    pub default_pattern: u32,
    pub demand_multiplier: f64,
}

pub enum Node {
    Reservoir { elevation: f64, pattern: PatternIndex },
    Tank(Tank),
    Junction { disabled: bool, elevation: f64, demands: Vec<Demand> },
}

pub struct Tank {
    pub elevation: f64,
    pub initial: f64,
    pub least: f64,
    pub greatest: f64,
    pub diameter: f64,
    pub overflow: bool,
}

pub struct Demand {
    pub base: f64,
    pub pattern: PatternIndex,
}

#[derive(Clone, Copy, PartialEq)]
pub enum Sort {
    Pipe,
    Pump,
    Valve,
}

pub struct Link {
    pub start: usize,
    pub end: usize,
    pub sort: Sort,
    pub status: u32,
    /// The diameter of a pipe or valve, the initial flow of a pump.
    pub size: f64,
    pub setting: f64,
}

/// The word after a condition's code, and the target where it has one.
pub enum Condition {
    HighPressure { node: usize, target: f64 },
    LowPressure { node: usize, target: f64 },
    HighLevel { node: usize, target: f64 },
    LowLevel { node: usize, target: f64 },
    Time { seconds: u32 },
    ClockTime { seconds: u32 },
}

pub struct Control {
    pub condition: Condition,
    pub link: usize,
    pub status: Option<u32>,
    pub setting: Option<f64>,
}

pub enum Value {
    Number(f64),
    Status(u32),
    Time(u32),
}

pub struct Premise {
    pub and: bool,
    pub attribute: u32,
    pub index: usize,
    pub comparison: u32,
    pub value: Value,
}

impl Project {
    /// The junctions, whose heads a load carries after the flows.
    pub fn junctions(&self) -> usize {
        self.nodes.iter().filter(|node| matches!(node, Node::Junction { .. })).count()
    }
}
