//! A run's state, and the parts of a step that change it.

use crate::network::{Control, NEVER, Network, Trigger, time_to_reach};
use crate::project::{Action, DAY, Status};

/// Feet by which a level may miss a control's target.
const LEVEL_TOLERANCE: f64 = 0.0001;

pub struct State {
    pub instant: u32,
    heads: Vec<f64>,
    demands: Vec<f64>,
    demand_flows: Vec<f64>,
    flows: Vec<f64>,
    statuses: Vec<Status>,
    settings: Vec<f64>,
    /// Each pattern's multiplier in the present period.
    multipliers: Vec<f64>,
}

impl State {
    pub fn new(network: &Network) -> Self {
        let nodes = network.initial_heads.len();
        State {
            instant: 0,
            heads: network.initial_heads.clone(),
            demands: vec![0.0; nodes],
            demand_flows: vec![0.0; nodes],
            flows: network.links.iter().map(|link| link.initial_flow).collect(),
            statuses: network.links.iter().map(|link| link.status).collect(),
            settings: network.links.iter().map(|link| link.setting).collect(),
            multipliers: vec![1.0; network.patterns.len()],
        }
    }

    pub fn apply_patterns(&mut self, network: &Network) {
        let period = (network.times.pattern_start + self.instant) / network.times.pattern_timestep;
        for (multiplier, pattern) in self.multipliers.iter_mut().zip(&network.patterns) {
            *multiplier = pattern[period as usize % pattern.len()];
        }
        for reservoir in &network.reservoirs {
            self.heads[reservoir.node] = reservoir.elevation * self.multipliers[reservoir.pattern];
        }
        for (demand, entries) in self.demands.iter_mut().zip(&network.demands_of) {
            let mut total = 0.0;
            for entry in &network.demands[entries.clone()] {
                total += entry.base * self.multipliers[entry.pattern] * network.demand_multiplier;
            }
            *demand = total;
        }
        if network.pressure_driven {
            self.demand_flows.copy_from_slice(&self.demands);
        }
    }

    pub fn apply_controls(&mut self, network: &Network) {
        let clock = self.clock(network);
        for control in &network.controls {
            if self.is_active(network, control, clock) {
                self.activate(network, control);
            }
        }
    }

    fn clock(&self, network: &Network) -> u32 {
        (self.instant + network.times.start_clock) % DAY
    }

    /// Levels are not looked at before the first step.
    fn is_active(&self, network: &Network, control: &Control, clock: u32) -> bool {
        match control.trigger {
            Trigger::Never => false,
            Trigger::HighLevel { tank, target, .. } => {
                self.instant != 0 && self.level(network, tank) - target >= -LEVEL_TOLERANCE
            }
            Trigger::LowLevel { tank, target, .. } => {
                self.instant != 0 && self.level(network, tank) - target <= LEVEL_TOLERANCE
            }
            Trigger::Time { seconds } => seconds == self.instant,
            Trigger::Clock { seconds } => seconds == clock,
        }
    }

    fn level(&self, network: &Network, tank: usize) -> f64 {
        let tank = &network.tanks[tank];
        self.heads[tank.node] - tank.elevation
    }

    fn activate(&mut self, network: &Network, control: &Control) {
        match control.action {
            Action::Status(status) => self.statuses[control.link] = status,
            Action::Setting(setting) => self.settings[control.link] = setting,
            Action::Nothing => return,
        }
        self.flows[control.link] = network.links[control.link].initial_flow;
    }

    /// Flows, junctions' heads, and for each tank its net inflow in link order.
    pub fn put_load(&mut self, network: &Network, flows: impl Iterator<Item = f64>, heads: impl Iterator<Item = f64>) {
        for (flow, loaded) in self.flows.iter_mut().zip(flows) {
            *flow = loaded;
        }
        for (&junction, head) in network.junctions.iter().zip(heads) {
            self.heads[junction] = head;
        }
        for tank in &network.tanks {
            self.demands[tank.node] = 0.0;
        }
        for (link, flow) in network.links.iter().zip(&self.flows) {
            if network.is_tank[link.end] {
                self.demands[link.end] += flow;
            }
            if network.is_tank[link.start] {
                self.demands[link.start] -= flow;
            }
        }
    }

    /// Sums each tank's inflow, the links into it first, and closes the links that would overfill or overdraw it.
    pub fn close_tank_links(&mut self, network: &Network) {
        for tank in &network.tanks {
            let is_full = self.heads[tank.node] >= tank.full_head;
            let is_empty = self.heads[tank.node] <= tank.empty_head;
            let mut inflow = 0.0;
            for &link in &tank.links_in {
                let flow = self.flows[link];
                inflow += flow;
                if (is_full && flow > 0.0) || (is_empty && flow < 0.0) {
                    self.statuses[link] = Status::TempClosed;
                }
            }
            for &link in &tank.links_out {
                let flow = self.flows[link];
                inflow -= flow;
                if (is_full && flow < 0.0) || (is_empty && flow > 0.0) {
                    self.statuses[link] = Status::TempClosed;
                }
            }
            self.demands[tank.node] = inflow;
        }
    }

    /// Moves tanks and clock to the next instant that matters. Answers the seconds.
    pub fn step(&mut self, network: &Network) -> u32 {
        let length = self.step_length(network);
        for tank in &network.tanks {
            let change = self.demands[tank.node] * f64::from(length);
            self.heads[tank.node] = tank.head_after(self.heads[tank.node], change);
        }
        self.instant += length;
        length
    }

    /// The shortest candidate that is not 0.
    fn step_length(&self, network: &Network) -> u32 {
        let times = &network.times;
        let remainder = times.duration - self.instant;
        if network.is_fast {
            return times.report_timestep.min(remainder);
        }
        let report = times.report_timestep - self.instant % times.report_timestep;
        let pattern = times.pattern_timestep - self.instant % times.pattern_timestep;
        let candidates = [remainder, report, pattern, times.hydraulic_timestep, self.tank_time(network)];
        let shortest = candidates.into_iter().filter(|&seconds| seconds > 0).min().unwrap_or(remainder);
        shortest.min(self.control_time(network))
    }

    /// The smallest over all tanks, 0 among them: a tank at a limit hides the others.
    fn tank_time(&self, network: &Network) -> u32 {
        let times = network.tanks.iter().map(|tank| {
            let level = self.heads[tank.node] - tank.elevation;
            tank.time_to_fill_or_drain(level, self.demands[tank.node])
        });
        times.min().unwrap_or(NEVER)
    }

    /// The smallest of the controls' that is not 0.
    fn control_time(&self, network: &Network) -> u32 {
        let clock = self.clock(network);
        let times = network.controls.iter().map(|control| match control.trigger {
            Trigger::Never => NEVER,
            Trigger::HighLevel { tank, volume, .. } | Trigger::LowLevel { tank, volume, .. } => {
                volume.map_or(NEVER, |volume| {
                    let gap = volume - network.tanks[tank].volume(self.level(network, tank));
                    time_to_reach(gap, self.demands[network.tanks[tank].node])
                })
            }
            Trigger::Time { seconds } => seconds.checked_sub(self.instant).unwrap_or(NEVER),
            Trigger::Clock { seconds } if seconds < clock => seconds + DAY - clock,
            Trigger::Clock { seconds } => seconds - clock,
        });
        times.filter(|&seconds| seconds > 0).min().unwrap_or(NEVER)
    }
}
