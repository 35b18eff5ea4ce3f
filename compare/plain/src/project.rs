//! What an image says, and the numbers of what is wrong with it.

/// Seconds.
pub const DAY: u32 = 86_400;

/// A number of document 01.
#[derive(Clone, Copy)]
pub struct Fault(pub u32);

impl Fault {
    pub const NO_IMAGE: Fault = Fault(1);
    pub const HEADER: Fault = Fault(2);
    pub const CUT: Fault = Fault(3);
    pub const ROOM: Fault = Fault(4);
    pub const WORDS: Fault = Fault(5);
    pub const INDEX: Fault = Fault(6);
    pub const LOAD_SHAPE: Fault = Fault(7);
    pub const LOAD_VALUE: Fault = Fault(8);
}

pub struct Project {
    pub times: Times,
    pub skip_timesteps: bool,
    pub pressure_driven: bool,
    pub default_pattern: Option<usize>,
    pub demand_multiplier: f64,
    pub patterns: Vec<Vec<f64>>,
    pub nodes: Vec<Node>,
    pub links: Vec<Link>,
    pub controls: Vec<Control>,
}

/// All in seconds.
#[derive(Clone, Copy)]
pub struct Times {
    pub duration: u32,
    /// The one in force: an hour where the image has 0.
    pub hydraulic_timestep: u32,
    pub report_timestep: u32,
    pub pattern_timestep: u32,
    pub pattern_start: u32,
    pub start_clock: u32,
}

pub enum Node {
    Reservoir { elevation: f64, pattern: Option<usize> },
    Tank(Tank),
    Junction { disabled: bool, demands: Vec<Demand> },
}

/// Feet.
#[derive(Clone, Copy)]
pub struct Tank {
    pub elevation: f64,
    pub initial: f64,
    pub least: f64,
    pub greatest: f64,
    pub diameter: f64,
    pub overflow: bool,
}

pub struct Demand {
    pub base: f64,
    pub pattern: Option<usize>,
}

pub struct Link {
    pub start: usize,
    pub end: usize,
    pub status: Status,
    /// Cubic feet per second.
    pub initial_flow: f64,
    pub setting: f64,
}

#[derive(Clone, Copy, PartialEq)]
pub enum Status {
    Xhead,
    TempClosed,
    Closed,
    Open,
    Active,
    Xflow,
    Xfcv,
    Xpressure,
    FixedOpen,
    FixedClosed,
}

impl Status {
    pub const ALL: [Status; 10] = [
        Status::Xhead,
        Status::TempClosed,
        Status::Closed,
        Status::Open,
        Status::Active,
        Status::Xflow,
        Status::Xfcv,
        Status::Xpressure,
        Status::FixedOpen,
        Status::FixedClosed,
    ];
}

pub struct Control {
    pub condition: Condition,
    pub link: usize,
    pub action: Action,
}

#[derive(Clone, Copy)]
pub enum Condition {
    /// The driver has no pressure pass: such a control only keeps a run off the fast path.
    Pressure,
    HighLevel {
        node: usize,
        target: f64,
    },
    LowLevel {
        node: usize,
        target: f64,
    },
    Time {
        seconds: u32,
    },
    Clock {
        seconds: u32,
    },
}

/// A status wins over a setting.
#[derive(Clone, Copy)]
pub enum Action {
    Status(Status),
    Setting(f64),
    Nothing,
}
