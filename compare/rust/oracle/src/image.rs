//! The project image, read from document 01: the records, and the number of the first fault in image order.
//!
//! A record is judged at its header (2), its end (3), its count (4), its words (5) and its indices (6), in this order,
//! and before the next record.

use crate::project::*;

/// A refusal's number in document 01.
pub type Fault = u32;

const NO_WORDS_OR_TOO_MANY: Fault = 1;
const HEADER: Fault = 2;
const PAST_THE_END: Fault = 3;
const ONE_TOO_MANY: Fault = 4;
const WORDS: Fault = 5;
const INDEX: Fault = 6;

pub const MOST_WORDS: usize = 16_384;
const MOST_PATTERNS: usize = 32;
const MOST_NODES: usize = 256;
const MOST_LINKS: usize = 384;
const MOST_CONTROLS: usize = 64;
const MOST_PREMISES: usize = 128;

/// Seconds: ten years, and the last second of a day.
const LONGEST_TIME: u32 = 315_360_000;
const LAST_OF_DAY: u32 = 86_399;

/// Elevations, levels and targets lie within plus and minus this, in feet.
const MOST_FEET: f64 = 100_000.0;
const LEAST_DIAMETER: f64 = 0.001;
const GREATEST_DIAMETER: f64 = 10_000.0;
const MOST_PREMISE_NUMBER: f64 = 1e12;
/// The other numbers of an image lie within plus and minus this.
const MOST_OTHER: f64 = 1_000_000.0;

const LINK_STATUSES: u32 = 10;
const COMPARISONS: u32 = 6;

pub fn decode(words: &[u32]) -> Result<Project, Fault> {
    if words.is_empty() || words.len() > MOST_WORDS {
        return Err(NO_WORDS_OR_TOO_MANY);
    }
    let mut project = Project::default();
    let mut last_stage = None;
    let mut rest = words;
    while let Some((&header, after)) = rest.split_first() {
        let kind = header >> 28;
        last_stage = Some(stage_after(last_stage, header).ok_or(HEADER)?);
        let size = payload_words(header);
        if after.len() < size {
            return Err(PAST_THE_END);
        }
        let (payload, later) = after.split_at(size);
        project.take(kind, Payload::new(payload))?;
        rest = later;
    }
    pattern_index(project.options.default_pattern, &project)?;
    Ok(project)
}

pub fn payload_words(header: u32) -> usize {
    (header & 0xffff) as usize
}

pub fn middle_bits(header: u32) -> u32 {
    header >> 16 & 0xfff
}

/// The stage that a record brings the image to, or none where its header is at fault.
fn stage_after(last: Option<u32>, header: u32) -> Option<u32> {
    let kind = header >> 28;
    let stage = stage_of(kind)?;
    let follows = match last {
        None => stage == 0,
        Some(last) => stage != 0 && last <= stage,
    };
    (follows && middle_bits(header) == 0 && size_fits(kind, payload_words(header))).then_some(stage)
}

/// Options, patterns, nodes, links, controls, premises.
fn stage_of(kind: u32) -> Option<u32> {
    match kind {
        1 => Some(0),
        2 => Some(1),
        3..=5 => Some(2),
        6 => Some(3),
        7 => Some(4),
        8 => Some(5),
        _ => None,
    }
}

fn size_fits(kind: u32, size: usize) -> bool {
    match kind {
        1 => size == 10,
        2 => (2..=2 * 168).contains(&size) && size % 2 == 0,
        3 => size == 3,
        4 => size == 11,
        5 => (3..=15).contains(&size) && size % 3 == 0,
        6 => size == 8,
        7 => size == 9,
        8 => size == 7,
        _ => false,
    }
}

/// A record's words in order. A number 5 is remembered and told at the end, since every 5 of a record comes before its
/// first 6 and which of them it was makes no difference.
struct Payload<'a> {
    words: &'a [u32],
    sound: bool,
}

impl<'a> Payload<'a> {
    fn new(words: &'a [u32]) -> Self {
        Payload { words, sound: true }
    }

    fn require(&mut self, test: bool) {
        self.sound &= test;
    }

    fn is_at_end(&self) -> bool {
        self.words.is_empty()
    }

    fn word(&mut self) -> u32 {
        let (&word, rest) = self.words.split_first().expect("the size fits the kind");
        self.words = rest;
        word
    }

    fn bits(&mut self) -> u64 {
        let low = self.word();
        let high = self.word();
        u64::from(high) << 32 | u64::from(low)
    }

    /// A code from 0, of which there are so many.
    fn code(&mut self, count: u32) -> u32 {
        let word = self.word();
        self.require(word < count);
        word
    }

    /// A word of which only these bits may be set.
    fn flags(&mut self, bits: u32) -> u32 {
        let word = self.word();
        self.require(word & !bits == 0);
        word
    }

    fn seconds(&mut self, least: u32, most: u32) -> u32 {
        let word = self.word();
        self.require(least <= word && word <= most);
        word
    }

    /// A NaN lies in no range.
    fn number_between(&mut self, least: f64, most: f64) -> f64 {
        let number = f64::from_bits(self.bits());
        self.require(least <= number && number <= most);
        number
    }

    fn number(&mut self, most: f64) -> f64 {
        self.number_between(-most, most)
    }

    fn unused_word(&mut self) {
        let word = self.word();
        self.require(word == 0);
    }

    /// Both words are 0, so -0.0 is at fault too.
    fn unused_number(&mut self) {
        self.unused_word();
        self.unused_word();
    }

    fn judge_words(&self) -> Result<(), Fault> {
        if self.sound { Ok(()) } else { Err(WORDS) }
    }
}

fn judge_room(count: usize, most: usize) -> Result<(), Fault> {
    if count < most { Ok(()) } else { Err(ONE_TOO_MANY) }
}

fn judge_index(index: usize, count: usize) -> Result<(), Fault> {
    if index < count { Ok(()) } else { Err(INDEX) }
}

/// A pattern word is 0 for none, else index + 1.
fn pattern_index(word: u32, project: &Project) -> Result<PatternIndex, Fault> {
    if word == 0 {
        return Ok(None);
    }
    let index = word as usize - 1;
    judge_index(index, project.patterns.len())?;
    Ok(Some(index))
}

impl Project {
    fn take(&mut self, kind: u32, payload: Payload) -> Result<(), Fault> {
        match kind {
            1 => {
                self.options = options(payload)?;
            }
            2 => {
                judge_room(self.patterns.len(), MOST_PATTERNS)?;
                self.patterns.push(pattern(payload)?);
            }
            3..=5 => {
                judge_room(self.nodes.len(), MOST_NODES)?;
                let node = match kind {
                    3 => reservoir(payload, self)?,
                    4 => tank(payload)?,
                    _ => junction(payload, self)?,
                };
                self.nodes.push(node);
            }
            6 => {
                judge_room(self.links.len(), MOST_LINKS)?;
                self.links.push(link(payload, self)?);
            }
            7 => {
                judge_room(self.controls.len(), MOST_CONTROLS)?;
                self.controls.push(control(payload, self)?);
            }
            _ => {
                judge_room(self.premises.len(), MOST_PREMISES)?;
                self.premises.push(premise(payload, self)?);
            }
        }
        Ok(())
    }
}

fn options(mut payload: Payload) -> Result<Options, Fault> {
    let duration = payload.seconds(0, LONGEST_TIME);
    let hydraulic_timestep = payload.seconds(0, LONGEST_TIME);
    let report_timestep = payload.seconds(1, LONGEST_TIME);
    let pattern_timestep = payload.seconds(1, LONGEST_TIME);
    let pattern_start = payload.seconds(0, LONGEST_TIME);
    let start_clock = payload.seconds(0, LAST_OF_DAY);
    let flags = payload.flags(1 | 2);
    let default_pattern = payload.word();
    let demand_multiplier = payload.number(MOST_OTHER);
    payload.judge_words()?;
    Ok(Options {
        duration,
        hydraulic_timestep,
        report_timestep,
        pattern_timestep,
        pattern_start,
        start_clock,
        skip_timesteps: flags & 1 != 0,
        pressure_driven: flags & 2 != 0,
        default_pattern,
        demand_multiplier,
    })
}

fn pattern(mut payload: Payload) -> Result<Vec<f64>, Fault> {
    let mut multipliers = Vec::new();
    while !payload.is_at_end() {
        multipliers.push(payload.number(MOST_OTHER));
    }
    payload.judge_words()?;
    Ok(multipliers)
}

fn reservoir(mut payload: Payload, project: &Project) -> Result<Node, Fault> {
    let elevation = payload.number(MOST_FEET);
    let pattern = payload.word();
    payload.judge_words()?;
    Ok(Node::Reservoir { elevation, pattern: pattern_index(pattern, project)? })
}

fn tank(mut payload: Payload) -> Result<Node, Fault> {
    let elevation = payload.number(MOST_FEET);
    let initial = payload.number(MOST_FEET);
    let least = payload.number(MOST_FEET);
    let greatest = payload.number(MOST_FEET);
    let diameter = payload.number_between(LEAST_DIAMETER, GREATEST_DIAMETER);
    let flags = payload.flags(1);
    payload.require(least <= greatest);
    payload.judge_words()?;
    Ok(Node::Tank(Tank { elevation, initial, least, greatest, diameter, overflow: flags & 1 != 0 }))
}

fn junction(mut payload: Payload, project: &Project) -> Result<Node, Fault> {
    let flags = payload.flags(1);
    let elevation = payload.number(MOST_FEET);
    let mut bases_and_patterns = Vec::new();
    while !payload.is_at_end() {
        let base = payload.number(MOST_OTHER);
        bases_and_patterns.push((base, payload.word()));
    }
    payload.judge_words()?;
    let mut demands = Vec::new();
    for (base, pattern) in bases_and_patterns {
        demands.push(Demand { base, pattern: pattern_index(pattern, project)? });
    }
    Ok(Node::Junction { disabled: flags & 1 != 0, elevation, demands })
}

fn link(mut payload: Payload, project: &Project) -> Result<Link, Fault> {
    let start = payload.word() as usize;
    let end = payload.word() as usize;
    payload.require(start != end);
    let sort = match payload.code(3) {
        0 => Sort::Pipe,
        1 => Sort::Pump,
        _ => Sort::Valve,
    };
    let status = payload.code(LINK_STATUSES);
    let size = match sort {
        Sort::Pump => payload.number(MOST_OTHER),
        Sort::Pipe | Sort::Valve => payload.number_between(LEAST_DIAMETER, GREATEST_DIAMETER),
    };
    let setting = match sort {
        Sort::Pipe => {
            payload.unused_number();
            0.0
        }
        Sort::Pump | Sort::Valve => payload.number(MOST_OTHER),
    };
    payload.judge_words()?;
    judge_index(start, project.nodes.len())?;
    judge_index(end, project.nodes.len())?;
    Ok(Link { start, end, sort, status, size, setting })
}

fn control(mut payload: Payload, project: &Project) -> Result<Control, Fault> {
    let condition = condition(&mut payload);
    let link = payload.word() as usize;
    let flags = payload.flags(1 | 2);
    let status = if flags & 1 != 0 {
        Some(payload.code(LINK_STATUSES))
    } else {
        payload.unused_word();
        None
    };
    let setting = if flags & 2 != 0 {
        Some(payload.number(MOST_OTHER))
    } else {
        payload.unused_number();
        None
    };
    payload.judge_words()?;
    match condition {
        Condition::HighPressure { node, .. }
        | Condition::LowPressure { node, .. }
        | Condition::HighLevel { node, .. }
        | Condition::LowLevel { node, .. } => judge_index(node, project.nodes.len())?,
        Condition::Time { .. } | Condition::ClockTime { .. } => {}
    }
    judge_index(link, project.links.len())?;
    Ok(Control { condition, link, status, setting })
}

/// A condition's code, its node or seconds, and its target. A condition that goes by the time has no target.
fn condition(payload: &mut Payload) -> Condition {
    let code = payload.code(6);
    if code < 4 {
        let node = payload.word() as usize;
        let target = payload.number(MOST_FEET);
        return match code {
            0 => Condition::HighPressure { node, target },
            1 => Condition::LowPressure { node, target },
            2 => Condition::HighLevel { node, target },
            _ => Condition::LowLevel { node, target },
        };
    }
    let seconds = payload.seconds(0, if code == 4 { LONGEST_TIME } else { LAST_OF_DAY });
    payload.unused_number();
    if code == 4 { Condition::Time { seconds } } else { Condition::ClockTime { seconds } }
}

fn premise(mut payload: Payload, project: &Project) -> Result<Premise, Fault> {
    let operator = payload.code(2);
    let attribute = payload.code(12);
    let index = payload.word() as usize;
    let comparison = payload.code(COMPARISONS);
    let value = match payload.code(3) {
        0 => Value::Number(payload.number(MOST_PREMISE_NUMBER)),
        1 => {
            let status = payload.code(LINK_STATUSES);
            payload.unused_word();
            Value::Status(status)
        }
        _ => {
            let seconds = payload.seconds(0, LONGEST_TIME);
            payload.unused_word();
            Value::Time(seconds)
        }
    };
    // Three attributes each of a node, a tank, a link and the system, which has no index.
    let of_the_system = attribute >= 9;
    if of_the_system {
        payload.require(index == 0);
    }
    payload.judge_words()?;
    match attribute {
        0..=5 => judge_index(index, project.nodes.len())?,
        6..=8 => judge_index(index, project.links.len())?,
        _ => {}
    }
    Ok(Premise { and: operator == 1, attribute, index, comparison, value })
}
