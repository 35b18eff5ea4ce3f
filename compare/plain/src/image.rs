//! The image's records, one after the other, up to the first that is at fault.
//!
//! A record is judged by its header (2), its end (3), the room in its table (4), its words (5) and its indices (6).

use std::f64::consts::PI;
use std::ops::RangeInclusive;

use crate::input::{Words, number};
use crate::project::*;

const MOST_PATTERNS: usize = 32;
const MOST_NODES: usize = 256;
const MOST_LINKS: usize = 384;
const MOST_CONTROLS: usize = 64;
const MOST_PREMISES: usize = 128;

/// Seconds: ten years, and a day's last.
const LONGEST: u32 = 315_360_000;
const LAST_OF_DAY: u32 = 86_399;
const HOUR: u32 = 3_600;

/// Feet.
const FEET: RangeInclusive<f64> = -100_000.0..=100_000.0;
const DIAMETER: RangeInclusive<f64> = 0.001..=10_000.0;
const OTHER: RangeInclusive<f64> = -1_000_000.0..=1_000_000.0;
const PREMISE_NUMBER: RangeInclusive<f64> = -1e12..=1e12;

/// The flow of a link that starts closed, in cubic feet per second.
const Q_ZERO: f64 = 1e-6;

/// The image's tables as far as they are read.
struct Decoder {
    project: Project,
    /// Judged after the last record.
    default_pattern: u32,
    premises: usize,
}

pub fn decode(mut words: Words) -> Result<Project, Fault> {
    let first = words.next().ok_or(Fault::NO_IMAGE)?;
    if first != 1 << 28 | 10 {
        return Err(Fault::HEADER);
    }
    let mut decoder = Decoder::new(words.take(10).ok_or(Fault::CUT)?)?;
    let mut last_stage = 0;
    while let Some(header) = words.next() {
        let (kind, size) = (header >> 28, header as usize & 0xffff);
        let (stage, size_fits) = match kind {
            2 => (1, (2..=336).contains(&size) && size % 2 == 0),
            3 => (2, size == 3),
            4 => (2, size == 11),
            5 => (2, (3..=15).contains(&size) && size % 3 == 0),
            6 => (3, size == 8),
            7 => (4, size == 9),
            8 => (5, size == 7),
            _ => return Err(Fault::HEADER),
        };
        if header >> 16 & 0xfff != 0 || stage < last_stage || !size_fits {
            return Err(Fault::HEADER);
        }
        last_stage = stage;
        decoder.take(kind, Payload::new(words.take(size).ok_or(Fault::CUT)?))?;
    }
    decoder.end()
}

/// A record's words, and whether they are right so far. Which of them is wrong makes no difference.
struct Payload<'a> {
    words: Words<'a>,
    right: bool,
}

impl<'a> Payload<'a> {
    fn new(words: Words<'a>) -> Self {
        Payload { words, right: true }
    }

    fn has_more(&self) -> bool {
        self.words.len() > 0
    }

    /// The header's size has been judged, so there is a word wherever one is asked for.
    fn word(&mut self) -> u32 {
        self.words.next().unwrap_or_default()
    }

    fn index(&mut self) -> usize {
        self.word() as usize
    }

    fn word_in(&mut self, range: RangeInclusive<u32>) -> u32 {
        let word = self.word();
        self.right &= range.contains(&word);
        word
    }

    /// A NaN is in no range.
    fn number_in(&mut self, range: RangeInclusive<f64>) -> f64 {
        let (low, high) = (self.word(), self.word());
        let number = number(low, high);
        self.right &= range.contains(&number);
        number
    }

    fn flag(&mut self) -> bool {
        self.word_in(0..=1) == 1
    }

    fn status(&mut self) -> Status {
        let code = self.word_in(0..=9);
        *Status::ALL.get(code as usize).unwrap_or(&Status::Open)
    }

    fn unused(&mut self, words: usize) {
        for _ in 0..words {
            self.right &= self.word() == 0;
        }
    }

    fn judge(&self) -> Result<(), Fault> {
        judge(self.right, Fault::WORDS)
    }
}

/// Document 02, R-7: "From now on 0 is read as 3,600".
fn in_force(hydraulic_timestep: u32) -> u32 {
    if hydraulic_timestep == 0 { HOUR } else { hydraulic_timestep }
}

fn judge(right: bool, fault: Fault) -> Result<(), Fault> {
    if right { Ok(()) } else { Err(fault) }
}

impl Decoder {
    fn new(options: Words) -> Result<Self, Fault> {
        let mut payload = Payload::new(options);
        let times = Times {
            duration: payload.word_in(0..=LONGEST),
            hydraulic_timestep: in_force(payload.word_in(0..=LONGEST)),
            report_timestep: payload.word_in(1..=LONGEST),
            pattern_timestep: payload.word_in(1..=LONGEST),
            pattern_start: payload.word_in(0..=LONGEST),
            start_clock: payload.word_in(0..=LAST_OF_DAY),
        };
        let flags = payload.word_in(0..=3);
        let default_pattern = payload.word();
        let demand_multiplier = payload.number_in(OTHER);
        payload.judge()?;
        let project = Project {
            times,
            skip_timesteps: flags & 1 != 0,
            pressure_driven: flags & 2 != 0,
            default_pattern: None,
            demand_multiplier,
            patterns: Vec::new(),
            nodes: Vec::new(),
            links: Vec::new(),
            controls: Vec::new(),
        };
        Ok(Decoder { project, default_pattern, premises: 0 })
    }

    fn end(mut self) -> Result<Project, Fault> {
        self.project.default_pattern = self.pattern(self.default_pattern)?;
        Ok(self.project)
    }

    fn take(&mut self, kind: u32, payload: Payload) -> Result<(), Fault> {
        let (count, most) = match kind {
            2 => (self.project.patterns.len(), MOST_PATTERNS),
            3..=5 => (self.project.nodes.len(), MOST_NODES),
            6 => (self.project.links.len(), MOST_LINKS),
            7 => (self.project.controls.len(), MOST_CONTROLS),
            _ => (self.premises, MOST_PREMISES),
        };
        judge(count < most, Fault::ROOM)?;
        match kind {
            2 => self.project.patterns.push(multipliers(payload)?),
            3 => self.project.nodes.push(self.reservoir(payload)?),
            4 => self.project.nodes.push(tank(payload)?),
            5 => self.project.nodes.push(self.junction(payload)?),
            6 => self.project.links.push(self.link(payload)?),
            7 => self.project.controls.push(self.control(payload)?),
            _ => {
                self.judge_premise(payload)?;
                self.premises += 1;
            }
        }
        Ok(())
    }

    /// A pattern word is 0 for none, else the index and one more.
    fn pattern(&self, word: u32) -> Result<Option<usize>, Fault> {
        let index = (word as usize).checked_sub(1);
        judge(index.is_none_or(|index| index < self.project.patterns.len()), Fault::INDEX)?;
        Ok(index)
    }

    fn judge_node(&self, index: usize) -> Result<(), Fault> {
        judge(index < self.project.nodes.len(), Fault::INDEX)
    }

    fn judge_link(&self, index: usize) -> Result<(), Fault> {
        judge(index < self.project.links.len(), Fault::INDEX)
    }

    fn reservoir(&self, mut payload: Payload) -> Result<Node, Fault> {
        let elevation = payload.number_in(FEET);
        let pattern = payload.word();
        payload.judge()?;
        Ok(Node::Reservoir { elevation, pattern: self.pattern(pattern)? })
    }

    fn junction(&self, mut payload: Payload) -> Result<Node, Fault> {
        let disabled = payload.flag();
        payload.number_in(FEET); // the elevation goes into pressures, which the driver does not ask
        let mut demands = Vec::with_capacity(4);
        while payload.has_more() {
            demands.push((payload.number_in(OTHER), payload.word()));
        }
        payload.judge()?;
        let demands = demands.into_iter().map(|(base, word)| Ok(Demand { base, pattern: self.pattern(word)? }));
        Ok(Node::Junction { disabled, demands: demands.collect::<Result<_, _>>()? })
    }

    fn link(&self, mut payload: Payload) -> Result<Link, Fault> {
        const PIPE: u32 = 0;
        const PUMP: u32 = 1;
        let (start, end) = (payload.index(), payload.index());
        payload.right &= start != end;
        let sort = payload.word_in(0..=2);
        let status = payload.status();
        let open_flow = if sort == PUMP {
            payload.number_in(OTHER)
        } else {
            let diameter = payload.number_in(DIAMETER);
            0.25 * PI * (diameter * diameter)
        };
        let setting = if sort == PIPE {
            payload.unused(2);
            0.0
        } else {
            payload.number_in(OTHER)
        };
        payload.judge()?;
        self.judge_node(start)?;
        self.judge_node(end)?;
        let initial_flow = if matches!(status, Status::Closed | Status::FixedClosed) { Q_ZERO } else { open_flow };
        Ok(Link { start, end, status, initial_flow, setting })
    }

    fn control(&self, mut payload: Payload) -> Result<Control, Fault> {
        let code = payload.word_in(0..=5);
        let (node, condition) = condition(code, &mut payload);
        let link = payload.index();
        let flags = payload.word_in(0..=3);
        let mut action = Action::Nothing;
        let status = if flags & 1 != 0 { Some(payload.status()) } else { None };
        if status.is_none() {
            payload.unused(1);
        }
        if flags & 2 != 0 {
            action = Action::Setting(payload.number_in(OTHER));
        } else {
            payload.unused(2);
        }
        if let Some(status) = status {
            action = Action::Status(status);
        }
        payload.judge()?;
        node.map_or(Ok(()), |node| self.judge_node(node))?;
        self.judge_link(link)?;
        Ok(Control { condition, link, action })
    }

    /// The driver asks no premise, so that only the fault matters.
    fn judge_premise(&self, mut payload: Payload) -> Result<(), Fault> {
        payload.word_in(0..=1);
        let attribute = payload.word_in(0..=11);
        let index = payload.index();
        payload.word_in(0..=5);
        match payload.word_in(0..=2) {
            0 => {
                payload.number_in(PREMISE_NUMBER);
            }
            1 => {
                payload.status();
                payload.unused(1);
            }
            _ => {
                payload.word_in(0..=LONGEST);
                payload.unused(1);
            }
        }
        payload.right &= attribute < 9 || index == 0;
        payload.judge()?;
        match attribute {
            0..6 => self.judge_node(index),
            6..9 => self.judge_link(index),
            _ => Ok(()),
        }
    }
}

fn multipliers(mut payload: Payload) -> Result<Vec<f64>, Fault> {
    let mut multipliers = Vec::with_capacity(payload.words.len() / 2);
    while payload.has_more() {
        multipliers.push(payload.number_in(OTHER));
    }
    payload.judge()?;
    Ok(multipliers)
}

fn tank(mut payload: Payload) -> Result<Node, Fault> {
    let tank = Tank {
        elevation: payload.number_in(FEET),
        initial: payload.number_in(FEET),
        least: payload.number_in(FEET),
        greatest: payload.number_in(FEET),
        diameter: payload.number_in(DIAMETER),
        overflow: payload.flag(),
    };
    payload.right &= tank.least <= tank.greatest;
    payload.judge()?;
    Ok(Node::Tank(tank))
}

/// A condition, and the node that it names.
fn condition(code: u32, payload: &mut Payload) -> (Option<usize>, Condition) {
    if code < 4 {
        let (node, target) = (payload.index(), payload.number_in(FEET));
        let condition = match code {
            2 => Condition::HighLevel { node, target },
            3 => Condition::LowLevel { node, target },
            _ => Condition::Pressure,
        };
        return (Some(node), condition);
    }
    let seconds = payload.word_in(0..=if code == 4 { LONGEST } else { LAST_OF_DAY });
    payload.unused(2);
    (None, if code == 4 { Condition::Time { seconds } } else { Condition::Clock { seconds } })
}
