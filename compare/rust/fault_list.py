"""The faults that faults.py plants.

A fault in the reference names a file, lines and the smallest tokens that change, with their place among the same tokens
of the line where it is not the first: none of the reference's text is kept here. A fault in the oracle's own source
names the text that changes.
"""

import sys
from dataclasses import dataclass


@dataclass
class Token:
    """A token of a line, and what stands in its place."""

    line: int
    old: str
    new: str
    which: int = 1

    def planted_in(self, text):
        lines = text.split("\n")
        parts = lines[self.line - 1].split(self.old)
        if len(parts) <= self.which:
            sys.exit(f"line {self.line} has no {self.old} number {self.which}")
        lines[self.line - 1] = self.old.join(parts[: self.which]) + self.new + self.old.join(parts[self.which :])
        return "\n".join(lines)


@dataclass
class Passage:
    """A passage that a file has once, and what stands in its place."""

    old: str
    new: str

    def planted_in(self, text):
        if text.count(self.old) != 1:
            sys.exit(f"not there once: {self.old}")
        return text.replace(self.old, self.new)


@dataclass
class Fault:
    words: str
    file: str
    changes: tuple
    is_in_oracle: bool = False
    shows_in: str = "other"

    def planted_in(self, text):
        for change in self.changes:
            text = change.planted_in(text)
        return text

    def place(self):
        lines = [change.line for change in self.changes if isinstance(change, Token)]
        return f"{self.file}:{min(lines)}" if lines else f"oracle {self.file}"


def fault(words, file, *changes, shows_in="other"):
    """A fault in the reference, from (line, old, new) or (line, old, new, which)."""
    return Fault(words, file, tuple(Token(*change) for change in changes), shows_in=shows_in)


def reading(words, file, *changes):
    """A fault in the oracle's own source, from (old, new)."""
    return Fault(words, file, tuple(Passage(*change) for change in changes), True, SHOWS_IN.get(file, "other"))


def timetable(words, old, new):
    """A fault in the oracle's timetable."""
    return reading(words, "timetable.rs", (old, new))


SHOWS_IN = {
    "image.rs": "image", "driver.rs": "driver", "second_clock.rs": "slow", "timetable.rs": "stops",
    "replay.rs": "close", "levels.rs": "levels",
}


def slow_call(words, old, new):
    """A fault in what the oracle makes of the second clock's call."""
    return Fault(words, "progress.rs", (Passage(old, new),), True, "slow")


def table_call(words, new):
    """A fault in what the oracle makes of closing by the table."""
    return Fault(words, "progress.rs", (Passage("self.close();", new),), True, "close")


def tank_sums(words, changed, before=""):
    """Such a fault in the tanks' sums: what is made of a tank's inflows, each behind its link's number."""
    return table_call(
        words,
        f"self.close(); let (network, state) = parts(&mut self.simulation); {before} "
        "for (tank, node) in network.nodes.iter().enumerate() { if let NodeType::Tank(found) = &node.node_type { "
        "let into = found.links_to.iter().map(|&link| (link, state.flows[link])); "
        "let out = found.links_from.iter().map(|&link| (link, -state.flows[link])); "
        "let mut inflows: Vec<(usize, f64)> = into.chain(out).collect(); "
        f"{changed} state.demands[tank] = inflows.iter().fold(0.0, |sum, inflow| sum + inflow.1); }} }}")


PATTERNS_APPLIED = "state.apply_patterns(network, time);"


def period_call(words, new):
    """A fault in when the oracle works patterns out: it has the instants at which it did, and goes by their periods."""
    return reading(
        words, "progress.rs",
        ("    count: usize,\n}", "    count: usize,\n    worked_out: Vec<usize>,\n}"),
        ("count: 0,", "count: 0, worked_out: Vec::new(),"),
        (PATTERNS_APPLIED,
         "let times = &network.options.time_options; "
         "let period = |time| (times.pattern_start + time) / times.pattern_timestep; "
         "let last = self.worked_out.last().copied(); "
         f"let goes_on = last.is_some_and(|last| period(last) == period(time)); {new}"))


def lost(words, what):
    """A fault about where the second chunk of a listing begins."""
    again = f"state.{what} = SolverState::new_with_initial_values(network).{what};"
    change = Passage(PATTERNS_APPLIED, f"if self.count == 4_800 {{ {again} }} {PATTERNS_APPLIED}")
    return Fault(words, "progress.rs", (change,), True, "run")


def run_fault(words, file, *changes):
    """A fault in the reference that a driver's runs have to find."""
    return fault(words, file, *changes, shows_in="run")


def level_fault(words, *changes):
    """A fault in the reference that questions for times to levels have to find."""
    return fault(words, TANK, *changes, shows_in="levels")


def by_kind(words, key):
    """A fault in the order in which controls act."""
    return fault(words, STATE,
                 (150, "&network.controls", "{ let mut controls: Vec<_> = network.controls.iter().collect(); "
                                            f"controls.sort_by_key(|control| {key}); controls }}"), shows_in="order")


def empty_kind(words, kind):
    """A fault in the smallest time of the controls, where none is of a kind."""
    return run_fault(words, SIMULATION,
                     (329, "t_controls", f"if network.controls.iter().any(|control| {KIND} == {kind}) "
                                         "{ t_controls } else { 0 }"))


def asked(words, chosen):
    """A fault in which controls are asked for their times."""
    return run_fault(words, SIMULATION, (294, "iter()", f"iter(){chosen}"))


def asked_of_a_kind(most):
    """So many controls of each kind, from the first."""
    return (f".filter({{ let mut asked = [0; 4]; move |control| {{ let kind = {KIND}; asked[kind] += 1; "
            f"asked[kind] <= {most} }} }})")


TANK, CONTROL, RULE, LINK = "model/tank.rs", "model/control.rs", "model/rule.rs", "model/link.rs"
STATE, SOLVER, SIMULATION = "solver/state.rs", "solver/hydraulicsolver.rs", "simulation.rs"

TEMPTING = [
    fault("0.5 added and cut off in place of rounding", TANK,
          (51, "round()", "mul_add(1.0, 0.5)"), (54, "round()", "mul_add(1.0, 0.5)")),
    fault("the level times a ready-made area", TANK, (78, "PI", "(PI"), (78, "4.0", "4.0)")),
    fault("a tank time of 0 is dropped before the smallest is taken", SIMULATION,
          (288, "min", "filter(|&x| x > 0).min")),
    fault("a clock control whose time has passed is active the same day", CONTROL, (136, "==", "<=")),
    fault("a clock control that has passed gives its distance and not the next day's", SIMULATION,
          (304, "+", ".abs() + 0 *")),
    fault("an overflow tank closes when full", SOLVER, (482, "!", "true |")),
]

TANKS = [
    fault("the greatest level is no target", TANK, (34, ">", ">=")),
    fault("the least level is no target", TANK, (37, "<", "<=")),
    fault("a target above the greatest level is timed", TANK, (34, ">", "> 1e9 +")),
    fault("a target below the least level is timed", TANK, (37, "<", "< -1e9 +")),
    fault("a gap of exactly 0.5 counts as none", TANK, (46, "<", "<=")),
    fault("a gap counts as none under 0.25", TANK, (46, "0.5", "0.25")),
    fault("a gap below 0 counts as none", TANK, (46, ".abs()", "")),
    fault("seconds are cut off", TANK, (51, "round", "floor"), (54, "round", "floor")),
    fault("seconds are rounded up", TANK, (51, "round", "ceil"), (54, "round", "ceil")),
    fault("halves of a second go to the even one", TANK,
          (51, "round", "round_ties_even"), (54, "round", "round_ties_even")),
    fault("a draining tank is timed as a filling one, by a gap above 0", TANK, (53, "<", ">")),
    fault("a tank without flow is timed, and at a limit hides the others", TANK, (61, "0.0", "f64::NAN")),
    fault("the longer of the times to full and to empty", TANK, (66, "min", "max")),
    fault("only the time to empty", TANK, (65, "max_level", "min_level")),
    fault("only the time to full", TANK, (66, "min_level", "max_level")),
    fault("a level below 0 has a volume below 0", TANK, (71, "0.0", "f64::MIN")),
    fault("the surface from the diameter squared first", TANK, (107, "self", "(self"), (107, "/", ")/")),
    fault("a level may rise over the greatest", TANK, (110, "self.max_level", "1e300")),
    fault("a level may fall under the least", TANK, (110, "self.min_level", "-1e300")),
    fault("a level of -0.0 becomes 0.0", TANK, (110, "new_level", "0.0 + new_level")),
    fault("the level goes into a volume and back", TANK, (108, "+ delta", "* surface_area / surface_area + delta")),
    fault("a step's seconds in 24 bits", STATE, (181, "timestep as", "timestep as f32 as")),
    fault("a gap from the levels' difference", TANK,
          (44, "target_volume", "(target_level"),
          (44, "current_volume", "current_level) * PI * self.diameter * self.diameter / 4.0")),
    fault("times over 2^32 seconds are cut down to it", TANK,
          (51, "as usize", "as u32 as usize"), (54, "as usize", "as u32 as usize")),
    fault("a step of 0 at the end moves the levels within the limits", SIMULATION, (134, ">=", ">")),
]

PATTERNS = [
    fault("the pattern start is left out", STATE, (91, "+", "* 0 +")),
    fault("periods go by the report timestep", STATE, (92, "pattern_timestep", "report_timestep")),
    fault("the default pattern holds for reservoirs", STATE,
          (98, "head_pattern_index", "head_pattern_index.or(network.options.pattern.as_ref()"
                             ".and_then(|id| network.pattern_map.get(id).copied()))")),
    fault("a reservoir's pattern goes by days of 24 periods", STATE, (103, "%", "% 24 %")),
    fault("a demand's pattern goes by days of 24 periods", STATE, (131, "%", "% 24 %")),
    fault("a disabled junction has its demand", STATE, (118, "n.disabled", "false")),
    fault("the default pattern is left out", STATE, (128, "default_pattern_idx", "None")),
    fault("the default pattern wins over a demand's own", STATE,
          (128, "default_pattern_idx", "demand.pattern_index"), (128, "demand.pattern_index", "default_pattern_idx")),
    fault("only the last of a junction's demands", STATE, (134, "+=", "=")),
    fault("a junction's demand begins at -0.0", STATE, (126, "0.0", "-0.0")),
    fault("the demand multiplier twice", STATE,
          (135, "demand_multiplier", "demand_multiplier * network.options.demand_multiplier")),
    fault("the demand multiplier left out", STATE, (135, "demand_multiplier", "demand_multiplier.powi(0)")),
    fault("pattern and demand multiplier are multiplied first", STATE,
          (135, "multiplier", "(multiplier"), (135, "demand_multiplier", "demand_multiplier)")),
    fault("under PDA demand flows stay", STATE, (142, "demands", "demand_flows")),
    fault("demand flows are copied without PDA too", STATE,
          (141, "==", "!= DemandModel::DDA || network.options.demand_model !=")),
]

CONTROLS = [
    fault("the start clock is left out for controls", STATE, (148, "+", "+ 0 *")),
    fault("a day of 12 hours for controls", STATE, (148, "24", "12")),
    fault("pressure controls are applied with the others", STATE, (156, "continue;", "")),
    fault("level controls are applied at time 0", STATE, (161, "0", "usize::MAX")),
    fault("level controls are always passed over, all controls at time 0", STATE, (161, "&&", "||")),
    fault("controls from the last to the first", STATE, (150, "&network.controls", "network.controls.iter().rev()")),
    fault("a time control is active ever after", CONTROL, (135, "==", "<=")),
    fault("high pressure without its limit", CONTROL, (140, ">=", ">")),
    fault("low pressure without its limit", CONTROL, (145, "<=", "<")),
    fault("high level without its limit", CONTROL, (153, ">=", ">")),
    fault("low level without its limit", CONTROL, (161, "<=", "<")),
    fault("high pressure with the tolerance of levels", CONTROL, (140, "H_TOL", "L_TOL")),
    fault("low pressure with the tolerance of levels", CONTROL, (145, "H_TOL", "L_TOL")),
    fault("high level with the tolerance of heads", CONTROL, (153, "L_TOL", "H_TOL")),
    fault("low level with the tolerance of heads", CONTROL, (161, "L_TOL", "H_TOL")),
    fault("high level's tolerance on the other side", CONTROL, (153, "-L", "L")),
    fault("high pressure against the target less the tolerance", CONTROL, (140, "- *target >=", ">= *target")),
    fault("low pressure against the target and the tolerance", CONTROL, (145, "- *target <=", "<= *target +")),
    fault("high level against the target less the tolerance", CONTROL, (153, "- *target >=", ">= *target")),
    fault("low level against the target and the tolerance", CONTROL, (161, "- *target <=", "<= *target +")),
    fault("a high-level control of no tank is active", CONTROL, (150, "false", "true")),
    fault("a low-level control of no tank is active", CONTROL, (158, "false", "true")),
    fault("a setting wins over a status", CONTROL,
          (170, "self.status", "self.status.filter(|_| self.setting.is_none())")),
    fault("a setting is put beside a status", CONTROL,
          (175, "return changed;", "if self.setting.is_none() { return changed; }")),
    fault("a status leaves the flow", CONTROL, (174, "link.initial_flow()", "state.flows[*link_index]")),
    fault("a setting leaves the flow", CONTROL, (181, "link.initial_flow()", "state.flows[*link_index]")),
    fault("a status that changes nothing leaves the flow", CONTROL,
          (174, "link.initial_flow()", "if changed { link.initial_flow() } else { state.flows[*link_index] }")),
    fault("a setting that changes nothing leaves the flow", CONTROL,
          (181, "link.initial_flow()", "if changed { link.initial_flow() } else { state.flows[*link_index] }")),
    fault("a setting changes by its bits, so -0.0 for 0.0 too", CONTROL,
          (178, "]", "].to_bits()"), (178, "setting;", "setting.to_bits();")),
    fault("a status counts as a change where it is none", CONTROL, (171, "!=", "==")),
    fault("a control with neither status nor setting resets the flow", CONTROL,
          (184, "false", "{ state.flows[*link_index] = link.initial_flow(); false }")),
    fault("a control that closes a link gives it the flow of a closed one", CONTROL,
          (174, "link.initial_flow()", "if status == LinkStatus::Closed { 1e-6 } else { link.initial_flow() }")),
]

LINKS = [
    fault("a link that starts fixed closed has the flow of an open one", LINK, (264, "FixedClosed", "Closed")),
    fault("a link that starts closed has the flow of an open one", LINK, (265, "Closed", "FixedClosed")),
    fault("a link that starts closed has no flow at all", LINK, (267, "Q_ZERO", "0.0")),
    fault("a link that starts temporarily closed has the flow of a closed one", LINK,
          (265, "LinkStatus::Closed", "LinkStatus::Closed || self.initial_status == LinkStatus::TempClosed")),
    fault("a pipe's flow from PI times diameter first", "model/pipe.rs", (130, ".powi(2)", " * self.diameter")),
    fault("a valve's flow from PI times diameter first", "model/valve.rs", (143, ".powi(2)", " * self.diameter")),
    fault("a junction starts at its elevation", "model/node.rs", (52, "0.0", "self.elevation")),
]

CLOSING = [
    fault("a tank at its greatest level does not close", SOLVER, (482, ">=", ">")),
    fault("a tank at its least level does not close", SOLVER, (483, "<=", "<")),
    fault("full by the least level, empty by the greatest", SOLVER,
          (482, "max_level", "min_level"), (483, "min_level", "max_level")),
    fault("a full tank closes a link into it without flow", SOLVER, (487, "> 0", ">= 0")),
    fault("an empty tank closes a link into it without flow", SOLVER, (490, "< 0", "<= 0")),
    fault("a full tank closes a link out of it without flow", SOLVER, (496, "< 0", "<= 0")),
    fault("an empty tank closes a link out of it without flow", SOLVER, (499, "> 0", ">= 0")),
    fault("full and empty are mixed up for links into a tank", SOLVER,
          (487, "fill_closed", "empty_closed"), (490, "empty_closed", "fill_closed")),
    fault("full and empty are mixed up for links out of a tank", SOLVER,
          (496, "fill_closed", "empty_closed"), (499, "empty_closed", "fill_closed")),
    fault("links out of a tank are taken first", SOLVER,
          (485, "links_to", "links_from"), (486, "+=", "-="), (487, ">", "<"), (490, "<", ">"),
          (494, "links_from", "links_to"), (495, "-=", "+="), (496, "<", ">"), (499, ">", "<")),
    fault("closing adds to the demand that is there", SOLVER, (480, "0.0", "state.demands[tank_index]")),
    fault("closing sums from -0.0", SOLVER, (480, "0.0", "-0.0")),
    fault("full by the level and not by the head", SOLVER, (482, ">= tank.elevation +", "- tank.elevation >=")),
    fault("empty by the level and not by the head", SOLVER, (483, "<= tank.elevation +", "- tank.elevation <=")),
    fault("a tank's links from the last to the first", "model/network/mod.rs",
          (253, "push(", "insert(0, "), (256, "push(", "insert(0, ")),
    fault("closing makes Closed of it", SOLVER, (488, "TempClosed", "Closed")),
    fault("the pressure pass goes on after a change", SOLVER, (469, "||", "|")),
    fault("an active control counts as a change in the pressure pass", SOLVER, (469, "control", "true | control")),
    fault("the pressure pass from the last to the first", SOLVER,
          (462, "&network.controls", "network.controls.iter().rev()")),
    fault("the pressure pass takes low pressures only", SOLVER, (465, "HighPressure", "LowPressure")),
]

STEPS = [
    fault("the remainder does not cap a step", SIMULATION, (140, "remaining", "remaining.max(usize::MAX)")),
    fault("the start clock is left out for a step", SIMULATION, (259, "+", "+ 0 *")),
    fault("the fast path with controls", SIMULATION, (262, "is_empty()", "is_empty() | true")),
    fault("the fast path with tanks", SIMULATION, (263, "!", "true | !")),
    fault("the fast path without the skip flag", SIMULATION, (265, "skip_timesteps", "(skip_timesteps | true)")),
    fault("no fast path", SIMULATION, (265, "skip_timesteps", "(skip_timesteps & false)")),
    fault("the fast path stops at pattern periods", SIMULATION,
          (267, "report_timestep", "report_timestep.min(times.pattern_timestep)")),
    fault("the report timestep sets no bound", SIMULATION, (326, "t_report", "t_report.max(t_pattern)")),
    fault("the pattern timestep sets no bound", SIMULATION, (327, "t_pattern", "t_pattern.max(t_report)")),
    fault("the pattern start moves the boundary of a step", SIMULATION,
          (273, "current_time", "(current_time + times.pattern_start)")),
    fault("a time control gives no time", SIMULATION, (297, "<", "< usize::MAX -")),
    fault("a clock control that is due gives the next day's time", SIMULATION, (303, "<", "<=")),
    fault("a clock control that has passed comes after half a day more", SIMULATION, (304, "24", "36")),
    fault("a level control gives no time", SIMULATION, (313, "*target", "*target + f64::MAX")),
    fault("a low-level control gives no time while the tank fills", SIMULATION,
          (313, "*target", "if matches!(control.condition, ControlCondition::LowLevel { .. }) "
                           "&& state.demands[*tank_index] > 0.0 { f64::MAX } else { *target }")),
    fault("a level control of no tank gives half an hour", SIMULATION, (315, "usize::MAX", "1800")),
    fault("a pressure control gives half an hour", SIMULATION, (318, "usize::MAX", "1800")),
    fault("a control in a second is dropped", SIMULATION, (320, "0", "1")),
    fault("a control that is due hides the others' times", SIMULATION, (320, ">", ">=")),
    fault("a candidate of 0, such as a full tank's, is a bound", SIMULATION, (333, ">", ">=")),
    fault("the hydraulic timestep sets no bound", SIMULATION, (330, "hydraulic_timestep", "report_timestep")),
    reading("0 is given to the Rust as no bound", "network.rs", ("{ 3600 }", "{ 0 }")),
    reading("0 is given to the Rust as a minute", "network.rs", ("{ 3600 }", "{ 60 }")),
]

PREMISES = [
    fault("Eq without its limit", RULE, (107, "<= H", "< H")),
    fault("Ne with its limit", RULE, (108, "> H", ">= H")),
    fault("Gt with its limit", RULE, (109, "> H", ">= H")),
    fault("Lt with its limit", RULE, (110, "< -", "<= -")),
    fault("Ge without its limit", RULE, (111, ">= -", "> -")),
    fault("Le without its limit", RULE, (112, "<= H", "< H")),
    fault("numbers are compared with the tolerance of levels", RULE,
          *((line, "H_TOL", "0.0001") for line in range(107, 113))),
    fault("Eq without abs", RULE, (107, ".abs()", "")),
    fault("Ge with its tolerance on the other side", RULE, (111, "-H", "H")),
    fault("Gt against the number and the tolerance", RULE, (109, "diff > H", "lhs > rhs + H")),
    fault("Lt against the number less the tolerance", RULE, (110, "diff < -", "lhs < rhs - ")),
    fault("Ge against the number less the tolerance", RULE, (111, "diff >= -", "lhs >= rhs - ")),
    fault("Le against the number and the tolerance", RULE, (112, "diff <= H", "lhs <= rhs + H")),
    fault("a tolerance of heads a little greater", "constants.rs", (29, "0.0005", "0.00050000000001")),
    fault("a tolerance of levels a little greater", "constants.rs", (31, "0.0001", "0.00010000000001")),
    fault("0.43333 pounds a square inch for a foot", "constants.rs", (69, "0.4333", "0.43333")),
    fault("a status is at least and at most another", RULE, (121, "false", "true")),
    fault("the system's demand sums demand flows", RULE, (148, "demands", "demand_flows")),
    fault("the system's demand is summed from the last node", RULE, (148, "iter()", "iter().rev()")),
    fault("the system's demand without tanks", RULE,
          (148, "iter()", "iter().zip(&network.nodes)"
                          ".filter(|(_, node)| !matches!(node.node_type, NodeType::Tank(_))).map(|pair| pair.0)")),
    fault("the system's time in 24 bits", RULE, (149, "as f64", "as f32 as f64")),
    fault("a time's value in 24 bits", RULE, (154, "as f64", "as f32 as f64")),
    fault("the clock time for the system's time", RULE, (149, "time as", "clocktime as")),
    fault("the time for the system's clock time", RULE, (150, "clocktime as", "time as")),
    fault("a time's value in hours", RULE, (154, "as f64", "as f64 / 3600.0")),
    fault("a status is 0 to the system", RULE, (155, "return false", "0.0")),
    fault("a node's demand flow for its demand", RULE, (165, "demands", "demand_flows")),
    fault("a node's pressure in feet", RULE, (167, "PSIperFT", "1.0")),
    fault("a value that is no number is 0 to a node", RULE, (171, "return false", "0.0")),
    fault("a tank's attribute of no tank is true", RULE, (181, "false", "true")),
    fault("the fill time is the drain time", RULE, (189, "max_level", "min_level")),
    fault("the drain time is the fill time", RULE, (192, "min_level", "max_level")),
    fault("the fill time in seconds", RULE, (189, "3600.0", "1.0")),
    fault("the drain time in seconds", RULE, (192, "3600.0", "1.0")),
    fault("the fill time times an hour's inverse", RULE, (189, "/ 3600.0", "* (1.0 / 3600.0)")),
    fault("the drain time times an hour's inverse", RULE, (192, "/ 3600.0", "* (1.0 / 3600.0)")),
    fault("a fill time of never is 2^40 seconds", RULE, (189, "as f64", ".min(1 << 40) as f64")),
    fault("a drain time of never is 2^40 seconds", RULE, (192, "as f64", ".min(1 << 40) as f64")),
    fault("a value that is no number is 0 to a tank", RULE, (197, "return false", "0.0")),
    fault("a link's flow with its sign", RULE, (211, ".abs()", "")),
    fault("a value that is no number is 0 to a flow", RULE, (209, "return false", "0.0")),
    fault("a value that is no number is 0 to a setting", RULE, (216, "return false", "0.0")),
    fault("a value that is no status is Open", RULE, (223, "return false", "LinkStatus::Open")),
]

IMAGES = [
    reading("16,385 words", "image.rs", ("16_384", "16_385")),
    reading("33 patterns", "image.rs", ("PATTERNS: usize = 32", "PATTERNS: usize = 33")),
    reading("257 nodes", "image.rs", ("NODES: usize = 256", "NODES: usize = 257")),
    reading("385 links", "image.rs", ("LINKS: usize = 384", "LINKS: usize = 385")),
    reading("65 controls", "image.rs", ("CONTROLS: usize = 64", "CONTROLS: usize = 65")),
    reading("129 premises", "image.rs", ("PREMISES: usize = 128", "PREMISES: usize = 129")),
    reading("a second over ten years", "image.rs", ("315_360_000", "315_360_001")),
    reading("clock times of a whole day", "image.rs", ("86_399", "86_400")),
    reading("a clock control after its day", "image.rs", ("if code == 4 { LONGEST_TIME", "if code < 6 { LONGEST_TIME")),
    reading("a report timestep of 0", "image.rs",
            ("report_timestep = payload.seconds(1", "report_timestep = payload.seconds(0")),
    reading("a pattern timestep of 0", "image.rs",
            ("pattern_timestep = payload.seconds(1", "pattern_timestep = payload.seconds(0")),
    reading("feet just over 100,000", "image.rs", ("= 100_000.0", "= 100_000.00000000001")),
    reading("a diameter just under 0.001", "image.rs", ("= 0.001", "= 0.00099999999999999")),
    reading("a diameter just over 10,000", "image.rs", ("= 10_000.0", "= 10_000.000000000002")),
    reading("a premise number over 10^12", "image.rs", ("1e12", "1.0000000000001e12")),
    reading("other numbers just over 1,000,000", "image.rs", ("= 1_000_000.0", "= 1_000_000.0000000001")),
    reading("a NaN lies in every range", "image.rs",
            ("least <= number && number <= most", "!(number < least || most < number)")),
    reading("an eleventh status", "image.rs", ("STATUSES: u32 = 10", "STATUSES: u32 = 11")),
    reading("a seventh comparison", "image.rs", ("COMPARISONS: u32 = 6", "COMPARISONS: u32 = 7")),
    reading("a third flag of options and controls", "image.rs", ("word & !bits == 0", "word & !bits & !4 == 0")),
    reading("bits 16 to 27 of a header are not looked at", "image.rs", ("middle_bits(header) == 0 && ", "")),
    reading("options a second time", "image.rs", ("stage != 0 && last", "last")),
    reading("options may be missing", "image.rs", ("None => stage == 0", "None => stage <= 1")),
    reading("stages in any order", "image.rs", ("last <= stage", "last <= stage + 5")),
    reading("reservoirs before other nodes", "image.rs",
            ("3..=5 => Some(2),", "3 => Some(2), 4 | 5 => Some(3),"), ("6 => Some(3)", "6 => Some(4)"),
            ("7 => Some(4)", "7 => Some(5)"), ("8 => Some(5)", "8 => Some(6)")),
    reading("a premise's value fits its attribute", "image.rs",
            ("let of_the_system = attribute >= 9;",
             "let of_the_system = attribute >= 9; "
             "payload.require((attribute == 7) == matches!(value, Value::Status(_)));")),
    reading("a pattern of 169 multipliers", "image.rs", ("2 * 168", "2 * 169")),
    reading("half a multiplier", "image.rs", ("contains(&size) && size % 2 == 0", "contains(&size)")),
    reading("a junction of five demands", "image.rs", ("3..=15", "3..=18")),
    reading("a premise past the end is told after the room in its table", "image.rs",
            ("if after.len() < size {", "if after.len() < size && project.premises.len() < MOST_PREMISES {"),
            ("after.split_at(size)", "after.split_at(size.min(after.len()))")),
    reading("a link's ends may be the same", "image.rs", ("start != end", "true")),
    reading("least above greatest", "image.rs", ("require(least <= greatest)", "require(true)")),
    reading("the initial level lies within the limits", "image.rs",
            ("require(least <= greatest)", "require(least <= initial && initial <= greatest)")),
    reading("a pump's flow is judged as a diameter", "image.rs",
            ("Sort::Pump => payload.number(MOST_OTHER),", "Sort::Pump => payload.number_between(0.0, MOST_OTHER),")),
    reading("a payload past the end is told before its header", "image.rs",
            ("last_stage = Some(",
             "if after.len() < payload_words(header) { return Err(PAST_THE_END); } last_stage = Some(")),
    reading("unused words are not looked at", "image.rs", ("self.require(word == 0)", "self.require(word == word)")),
    reading("a pipe's setting is not looked at", "image.rs",
            ("payload.unused_number();\n            0.0", "payload.bits();\n            0.0")),
    reading("a time control's target is not looked at", "image.rs",
            ("payload.unused_number();\n    if code", "payload.bits();\n    if code")),
    reading("an absent status is not looked at", "image.rs",
            ("payload.unused_word();\n        None", "payload.word();\n        None")),
    reading("an absent setting is not looked at", "image.rs",
            ("payload.unused_number();\n        None", "payload.bits();\n        None")),
    reading("the high word of a premise's status is not looked at", "image.rs",
            ("payload.unused_word();\n            Value::Status", "payload.word();\n            Value::Status")),
    reading("the high word of a premise's time is not looked at", "image.rs",
            ("payload.unused_word();\n            Value::Time", "payload.word();\n            Value::Time")),
    reading("a premise's time within a day", "image.rs",
            ("seconds(0, LONGEST_TIME);\n            payload", "seconds(0, LAST_OF_DAY);\n            payload")),
    reading("-0.0 in an unused number", "image.rs",
            ("fn unused_number(&mut self) {",
             "fn unused_number(&mut self) { let bits = self.bits(); return self.require(bits << 1 == 0);")),
    reading("the index of a system's premise is not looked at", "image.rs", ("require(index == 0)", "require(true)")),
    reading("an index one past the last", "image.rs", ("if index < count", "if index <= count")),
    reading("a link's start is judged before its words", "image.rs",
            ("let size = match sort {", "judge_index(start, project.nodes.len())?; let size = match sort {")),
    reading("the room for a link is judged after its words", "image.rs",
            ("judge_room(self.links.len(), MOST_LINKS)?;", ""),
            ("self.links.push(link(payload, self)?)",
             "let link = link(payload, self)?; judge_room(self.links.len(), MOST_LINKS)?; self.links.push(link)")),
    reading("the default pattern is not judged", "image.rs",
            ("pattern_index(project.options.default_pattern, &project)?;", "")),
    reading("the default pattern is judged behind the patterns and not at the end", "image.rs",
            ("let size = payload_words(header);",
             "let size = payload_words(header); "
             "if kind > 2 { pattern_index(project.options.default_pattern, &project)?; }")),
    reading("a count past the end of the input is cut down", "input.rs",
            ("self.words(count).ok_or(NO_IMAGE)?", "self.words(count.min(self.bytes.len() / 4)).ok_or(NO_IMAGE)?")),
]

LOADS = [
    reading("a load of another kind", "load.rs", ("header >> 28 == 15 && ", "")),
    reading("bits 16 to 27 of a load's header are not looked at", "load.rs", ("middle_bits(header) == 0 && ", "")),
    reading("the size in a load's header is not looked at", "load.rs",
            ("payload_words(header) == size", "size == size")),
    reading("words after a load are let go", "load.rs", ("words.len() != load_words", "words.len() < load_words")),
    reading("number 8 is told before 7", "load.rs",
            ("judge_header(header, links, junctions)?;",
             "if payload.chunks_exact(2).any(|pair| pair[1] >> 20 & 0x7ff == 0x7ff) { return Err(VALUE); } "
             "judge_header(header, links, junctions)?;")),
    reading("a value of exactly 10^12 is refused", "load.rs", ("number.abs() <= MOST", "number.abs() < MOST")),
    reading("a NaN is taken", "load.rs",
            ("|number| number.abs() <= MOST", "|number| number.is_nan() || number.abs() <= MOST")),
    reading("heads stand before flows", "load.rs",
            ("let (flows, heads) = numbers.split_at(links)", "let (heads, flows) = numbers.split_at(junctions)")),
    reading("junctions' heads from the last to the first", "progress.rs",
            ("load.heads.into_iter()", "load.heads.into_iter().rev()")),
    reading("a disabled junction keeps its head", "progress.rs",
            ("NodeType::Junction(_) => state",
             "NodeType::Junction(_) if node.disabled => drop(heads.next()), NodeType::Junction(_) => state")),
    reading("a load sets junctions' demands to 0", "progress.rs",
            ("match node.node_type {", "state.demands[index] = 0.0; match node.node_type {")),
    reading("a load adds to a tank's demand", "progress.rs", ("=> state.demands[index] = 0.0,", "=> {}")),
    reading("a closed link takes no flow", "progress.rs",
            ("state.flows = load.flows;",
             "state.flows = load.flows; for (flow, status) in state.flows.iter_mut().zip(&state.statuses) "
             "{ if *status == STATUSES[2] { *flow = 0.0; } }")),
    reading("a tank's inflow begins at -0.0", "progress.rs",
            ("=> state.demands[index] = 0.0,", "=> state.demands[index] = -0.0,")),
    reading("a refused load leaves no flows", "progress.rs",
            ("let load = load::decode(words, self.links(), self.junctions)?;",
             "let load = load::decode(words, self.links(), self.junctions)"
             ".inspect_err(|_| parts(&mut self.simulation).1.flows.fill(0.0))?;")),
    reading("a tank's inflow with the other sign", "progress.rs",
            ("demands[link.end_node] += flow", "demands[link.end_node] -= flow"),
            ("demands[link.start_node] -= flow", "demands[link.start_node] += flow")),
    reading("a tank's inflow without the links out of it", "progress.rs",
            ("demands[link.start_node] -= flow", "demands[link.start_node] -= 0.0 * flow")),
    reading("a tank's inflow from the last link to the first", "progress.rs",
            ("network.links.iter().zip(&state.flows)", "network.links.iter().zip(&state.flows).rev()")),
    reading("a load sets reservoirs' heads back", "progress.rs",
            ("NodeType::Reservoir(_) => {}", "NodeType::Reservoir(_) => state.heads[index] = node.elevation,")),
]

CALLS = [
    reading("a premise's clock time without the start clock", "progress.rs",
            ("(time + network.options", "(time + 0 * network.options")),
    reading("the last premise is refused", "progress.rs",
            ("get(number as usize)", "get(number as usize).filter(|_| number as usize + 1 < self.premises.len())")),
    reading("a premise past the last is false", "progress.rs",
            ("let premise = self.premises.get(number as usize).ok_or(NO_SUCH_PREMISE)?;",
             "let Some(premise) = self.premises.get(number as usize) else { return Ok(false) };")),
    reading("a step of 0 counts", "progress.rs", ("self.instant() != before", "self.instant() >= before")),
    reading("a pump's setting starts at its speed", "progress.rs",
            ("state.settings[index] = link.setting", "state.settings[index] += 0.0 * link.setting")),
    reading("a pump of setting 0 has the flow of a closed one", "network.rs",
            ("if setting != 0.0 && comes_back", "if setting == 0.0 || comes_back")),
    reading("TempClosed and Closed change places", "network.rs",
            ("LinkStatus::TempClosed,", "LinkStatus::Closed, LinkStatus::TempClosed,"),
            ("LinkStatus::TempClosed,\n    LinkStatus::Closed,", "LinkStatus::TempClosed,")),
    reading("a high level is a low one", "network.rs",
            ("=> ControlCondition::HighLevel { tank", "=> ControlCondition::LowLevel { tank")),
    reading("Ge and Gt change places", "network.rs",
            ("2 => ComparisonOperator::Gt", "2 => ComparisonOperator::Ge"),
            ("4 => ComparisonOperator::Ge", "4 => ComparisonOperator::Gt")),
]

DRIVING = [
    reading("a load before the controls", "driver.rs",
            ("progress.controls();", ""), ("progress.close();", "progress.controls(); progress.close();")),
    reading("closing before the load", "driver.rs",
            ("progress.close();", ""), ("progress.controls();", "progress.controls(); progress.close();")),
    reading("no closing", "driver.rs", ("progress.close();", "")),
    reading("a pressure pass in the driver", "driver.rs",
            ("progress.close();", "progress.pressure(); progress.close();")),
    reading("controls at the first step only", "driver.rs",
            ("progress.controls();", "if progress.count() == 0 { progress.controls(); }")),
    reading("stray bytes for a load are let go", "driver.rs",
            ("let header = input.peek().ok_or(CUT_LOAD)?;",
             "let Some(header) = input.peek() else { return Ok(()) };")),
    reading("a load cut by the end is let go", "driver.rs",
            ("progress.junctions())).ok_or(CUT_LOAD)?;", "progress.junctions())).unwrap_or_default();"),
            ("progress.load(&words)", "if words.is_empty() { Ok(()) } else { progress.load(&words) }")),
    reading("loads left over are read", "driver.rs",
            ('writeln!(out, "steps {}", progress.count())',
             'while !input.is_empty() { if let Err(fault) = take_load(&mut progress, &mut input) '
             '{ return writeln!(out, "refused {fault}"); } } writeln!(out, "steps {}", progress.count())')),
]

SERVED, REFUSED = "Ok(self.step())", "Err(second_clock::NOT_SERVED)"

SECOND_CLOCK = [
    reading("a project with tanks is served", "second_clock.rs", ("!has_tanks(project) && !is_on", "!is_on")),
    reading("the fast path is served", "second_clock.rs", (" && !is_on_fast_path(project)", "")),
    reading("any timesteps are served", "second_clock.rs", (" && !has_long_timesteps(project)", "")),
    reading("the skip flag is the fast path, controls or not", "second_clock.rs",
            (" && project.controls.is_empty()", "")),
    reading("a project without controls is on the fast path, skip flag or not", "second_clock.rs",
            ("project.options.skip_timesteps && ", "")),
    reading("a level control counts as a tank", "second_clock.rs",
            ("matches!(node, Node::Tank(_)))",
             "matches!(node, Node::Tank(_))) || project.controls.iter().any(|control| matches!(control.condition, "
             "crate::project::Condition::HighLevel { .. } | crate::project::Condition::LowLevel { .. }))")),
    reading("one timestep above a day is enough to refuse", "second_clock.rs", ("all(|&seconds|", "any(|&seconds|")),
    reading("86,401 is within a day", "second_clock.rs", ("86_400", "86_401")),
    reading("86,400 is above a day", "second_clock.rs", ("86_400", "86_399")),
    reading("the report timestep is not asked", "second_clock.rs", ("options.report_timestep as usize, ", "")),
    reading("the pattern timestep is not asked", "second_clock.rs", ("options.pattern_timestep as usize, ", "")),
    reading("the hydraulic timestep is not asked", "second_clock.rs", (" as usize, hydraulic]", " as usize]")),
    reading("a hydraulic timestep of 0 is no bound, and above a day", "second_clock.rs",
            ("= hydraulic_in_force(options.hydraulic_timestep)",
             "= if options.hydraulic_timestep == 0 { usize::MAX } else { options.hydraulic_timestep as usize }")),
    reading("a duration of a day or less is served", "second_clock.rs",
            ("seconds > DAY)", "seconds > DAY) && options.duration as usize > DAY")),
    reading("number 13 in place of 14", "second_clock.rs", ("NOT_SERVED: Fault = 14", "NOT_SERVED: Fault = 13")),
    slow_call("0 and not 14 at the duration", "if self.has_second_clock {",
              "if self.has_second_clock || self.instant() == self.duration() {"),
    slow_call("14 and not 0 at the duration", "if self.has_second_clock {",
              "if self.has_second_clock && self.instant() < self.duration() {"),
    slow_call("a refused one moves the clock", REFUSED, f"self.step(); {REFUSED}"),
    slow_call("a refused one leaves no flows", REFUSED, f"parts(&mut self.simulation).1.flows.fill(0.0); {REFUSED}"),
    slow_call("the second clock's steps are not counted", SERVED, "Ok(self.simulation.next_hydraulic_timestep())"),
    slow_call("the instant of the stop for the length", SERVED, "self.step(); Ok(self.instant())"),
    slow_call("it stops after every second", SERVED,
              "if self.instant() == self.duration() { return Ok(0); } "
              "self.simulation.time += 1; self.count += 1; Ok(1)"),
    slow_call("it applies the controls where it stops", SERVED,
              "let length = self.step(); self.controls(); Ok(length)"),
    slow_call("it applies the patterns where it stops", SERVED,
              "let length = self.step(); self.patterns(); Ok(length)"),
]

REPORT_AND_PATTERN = "[project.options.report_timestep as usize, project.options.pattern_timestep as usize]"
HYDRAULIC_LONG = "timesteps(project).iter().any(|&seconds| hydraulic >= seconds)"
ONE_WITHIN_A_DAY = "timesteps(project).iter().any(|&seconds| seconds <= DAY)"
IN_FORCE = "hydraulic_in_force(project.options.hydraulic_timestep)"

FORESEEN = [
    timetable("a works with tanks is foreseen", "!has_tanks(project) && ", ""),
    timetable("the fast path is foreseen", "!is_on_fast_path(project) && ", ""),
    timetable("the skip flag is the fast path, controls or not", "!is_on_fast_path(project)",
              "!project.options.skip_timesteps"),
    timetable("a works without controls is on the fast path, skip flag or not", "!is_on_fast_path(project)",
              "!project.controls.is_empty()"),
    timetable("a level control counts as a tank", "!has_tanks(project)",
              "!has_tanks(project) && !project.controls.iter().any(|control| matches!(control.condition, "
              "crate::project::Condition::HighLevel { .. } | crate::project::Condition::LowLevel { .. }))"),
    timetable("a works with pressure controls is not foreseen", "!has_tanks(project)",
              "!has_tanks(project) && !project.controls.iter().any(|control| matches!(control.condition, "
              "crate::project::Condition::HighPressure { .. } | crate::project::Condition::LowPressure { .. }))"),
    timetable("any hydraulic timestep is foreseen", "is_hydraulic_long(project) && ", ""),
    timetable("any report and pattern timesteps are foreseen", " && is_one_within_a_day(project)", ""),
    timetable("one of the two conditions on timesteps is enough",
              "is_hydraulic_long(project) && is_one_within_a_day(project)",
              "(is_hydraulic_long(project) || is_one_within_a_day(project))"),
    timetable("a hydraulic timestep equal to the shorter is not foreseen", "hydraulic >= seconds",
              "hydraulic > seconds"),
    timetable("a hydraulic timestep one below the shorter is foreseen", "hydraulic >= seconds",
              "hydraulic + 1 >= seconds"),
    timetable("the hydraulic timestep has to be at least both", HYDRAULIC_LONG, HYDRAULIC_LONG.replace("any", "all")),
    timetable("the hydraulic timestep has to be at least the report timestep", HYDRAULIC_LONG,
              "hydraulic >= timesteps(project)[0]"),
    timetable("the hydraulic timestep has to be at least the pattern timestep", HYDRAULIC_LONG,
              "hydraulic >= timesteps(project)[1]"),
    timetable("a hydraulic timestep of 0 is below every other", IN_FORCE,
              "project.options.hydraulic_timestep as usize"),
    timetable("a hydraulic timestep of 0 is no bound", IN_FORCE,
              "if project.options.hydraulic_timestep == 0 { usize::MAX } "
              "else { project.options.hydraulic_timestep as usize }"),
    timetable("86,401 is within a day", "86_400", "86_401"),
    timetable("86,400 is above a day", "86_400", "86_399"),
    timetable("both timesteps have to be within a day", ONE_WITHIN_A_DAY, ONE_WITHIN_A_DAY.replace("any", "all")),
    timetable("the report timestep has to be within a day", ONE_WITHIN_A_DAY, "timesteps(project)[0] <= DAY"),
    timetable("the pattern timestep has to be within a day", ONE_WITHIN_A_DAY, "timesteps(project)[1] <= DAY"),
    timetable("a duration of a day or less is enough", ONE_WITHIN_A_DAY,
              f"{ONE_WITHIN_A_DAY} || project.options.duration as usize <= DAY"),
    timetable("the pattern timestep is not asked", REPORT_AND_PATTERN,
              "[project.options.report_timestep as usize, usize::MAX]"),
    timetable("the report timestep is not asked", REPORT_AND_PATTERN,
              "[usize::MAX, project.options.pattern_timestep as usize]"),
    timetable("a duration of 0 has no timetable", "!has_tanks(project)",
              "project.options.duration > 0 && !has_tanks(project)"),
]

TABLED = 'writeln!(out, "{}", progress.instant())?;'
STEPS_LINE = 'writeln!(out, "steps {}", progress.count())'
REFUSED_LINE, NONE_LINE = 'writeln!(out, "refused {fault}")', 'writeln!(out, "none")'

TIMETABLE = [
    timetable("0 is listed", "progress.step();\n", f"if progress.count() == 0 {{ {TABLED} }} progress.step();\n"),
    timetable("the instants at which steps begin", "progress.step();\n        " + TABLED, f"{TABLED} progress.step();"),
    timetable("the duration is not listed", TABLED, f"if progress.instant() < progress.duration() {{ {TABLED} }}"),
    timetable("the lengths of the steps for the instants", "progress.step();\n        " + TABLED,
              'let length = progress.step(); writeln!(out, "{length}")?;'),
    timetable("the last stop before the duration is missing", "progress.step();\n        " + TABLED,
              "let before = progress.instant(); progress.step(); "
              'if before > 0 && progress.instant() < progress.duration() { writeln!(out, "{before}")?; } '
              f"if progress.instant() == progress.duration() {{ {TABLED} }}"),
    timetable("an instant set by report and pattern is listed twice", TABLED,
              f"if timesteps(project).iter().all(|seconds| progress.instant() % seconds == 0) {{ {TABLED} }} {TABLED}"),
    timetable("an instant set by two time controls is listed twice", TABLED,
              "let now = progress.instant(); for _ in 1..project.controls.iter().filter(|control| matches!("
              "control.condition, crate::project::Condition::Time { seconds } if seconds as usize == now)).count() "
              f"{{ {TABLED} }} {TABLED}"),
    timetable("an instant set by a time control alone is not listed", TABLED,
              "let now = progress.instant(); if now == progress.duration() "
              "|| timesteps(project).iter().any(|seconds| now % seconds == 0) "
              "|| !project.controls.iter().any(|control| matches!("
              "control.condition, crate::project::Condition::Time { seconds } if seconds as usize == now)) "
              f"{{ {TABLED} }}"),
    timetable("the start counts", STEPS_LINE, 'writeln!(out, "steps {}", progress.count() + 1)'),
    timetable("the duration does not count", STEPS_LINE,
              'writeln!(out, "steps {}", progress.count().saturating_sub(1))'),
    timetable("the duration for the count", STEPS_LINE, 'writeln!(out, "steps {}", progress.instant())'),
    timetable("no count", STEPS_LINE, "Ok(())"),
    timetable("the count begins again with a chunk", STEPS_LINE, 'writeln!(out, "steps {}", progress.count() % 4096)'),
    timetable("the first stop of the second chunk is missing", TABLED, f"if progress.count() != 4097 {{ {TABLED} }}"),
    timetable("the last stop of a chunk is listed twice", TABLED,
              f"if progress.count() % 4096 == 0 {{ {TABLED} }} {TABLED}"),
    timetable("a table of one whole chunk has no count", STEPS_LINE,
              f"if progress.count() == 4096 {{ Ok(()) }} else {{ {STEPS_LINE} }}"),
    timetable("a table ends after two chunks", "progress.instant() < progress.duration()",
              "progress.instant() < progress.duration() && progress.count() < 8192"),
    timetable("`none` for a refused image", REFUSED_LINE, NONE_LINE),
    timetable("a works that is not foreseen is refused", NONE_LINE, 'writeln!(out, "refused 14")'),
    timetable("no steps for a works that is not foreseen", NONE_LINE, 'writeln!(out, "steps 0")'),
    timetable("a count behind `none`", NONE_LINE, 'writeln!(out, "none\\nsteps 0")'),
    timetable("bytes behind the image are refused", "let project = match Input::new(bytes).project() {",
              "let mut input = Input::new(bytes); let read = input.project(); "
              "let project = match read.and_then(|project| if input.is_empty() { Ok(project) } else { Err(7) }) {"),
]

KEPT = "let kept = self.state().{0}.clone(); self.close(); parts(&mut self.simulation).1.{0} = kept;"
TEMP_CLOSED, CLOSED = "STATUSES[1]", "STATUSES[2]"
BY_TABLE = "9 => {\n            progress.close_by_table();\n            "
CUT = 'else { return writeln!(out, "refused {BROKEN_LIST}") };\n'

BY_THE_TABLE = [
    table_call("closing by the table does nothing", ""),
    table_call("it sums and closes no link", KEPT.format("statuses")),
    table_call("it closes and sums nothing", KEPT.format("demands")),
    table_call("a link with a flow from end to start is not closed",
               "let before = self.state().statuses.clone(); self.close(); let state = parts(&mut self.simulation).1; "
               "for (link, status) in before.into_iter().enumerate() "
               "{ if state.flows[link] < 0.0 { state.statuses[link] = status; } }"),
    table_call("it makes Closed of a link",
               "let before = self.state().statuses.clone(); self.close(); let state = parts(&mut self.simulation).1; "
               "for (status, was) in state.statuses.iter_mut().zip(before) "
               f"{{ if *status == {TEMP_CLOSED} && was != *status {{ *status = {CLOSED}; }} }}"),
    table_call("it opens a link that it does not close",
               f"parts(&mut self.simulation).1.statuses.iter_mut().filter(|status| **status == {TEMP_CLOSED})"
               ".for_each(|status| *status = STATUSES[3]); self.close();"),
    table_call("it adds to the demand that is there",
               "let before = self.state().demands.clone(); self.close(); "
               "let (network, state) = parts(&mut self.simulation); "
               "for (index, node) in network.nodes.iter().enumerate() "
               "{ if matches!(node.node_type, NodeType::Tank(_)) { state.demands[index] += before[index]; } }"),
    tank_sums("the links out of a tank are summed first",
              "let into = found.links_to.len(); inflows.rotate_left(into);"),
    tank_sums("a tank's links are summed in link order", "inflows.sort_by_key(|inflow| inflow.0);"),
    tank_sums("a tank's links are summed from the last", "inflows.reverse();"),
    tank_sums("the links out of a tank are not there", "inflows.truncate(found.links_to.len());"),
    tank_sums("a tank's last link is left out", "inflows.pop();"),
    tank_sums("a tank's first link out of it is one into it",
              "if let Some(first) = inflows.get_mut(found.links_to.len()) { first.1 = -first.1; }"),
    tank_sums("a link between two tanks stands at its end alone",
              "inflows.retain(|inflow| network.links[inflow.0].end_node == tank "
              "|| !matches!(network.nodes[network.links[inflow.0].end_node].node_type, NodeType::Tank(_)));"),
    tank_sums("the tanks behind one without links have none",
              "ended |= inflows.is_empty(); if ended { inflows.clear(); }", "let mut ended = false;"),
    tank_sums("every tank has the links of the first",
              "let own = inflows.clone(); inflows = first.get_or_insert(own).clone();",
              "let mut first: Option<Vec<(usize, f64)>> = None;"),
    tank_sums("the table ends after 384 entries",
              "inflows.truncate(room); room -= inflows.len();", "let mut room = 384;"),
    tank_sums("the table ends after 767 entries",
              "inflows.truncate(room); room -= inflows.len();", "let mut room = 767;"),
]

BROKEN_LISTS = [
    reading("closing by the table has another name", "replay.rs", (BY_TABLE + '"close', BY_TABLE + '"table')),
    reading("9 is no call", "replay.rs", ("9 => {", "19 => {")),
    reading("10 is a call", "replay.rs", ("9 => {", "9 | 10 => {")),
    reading("every code above 9 is a call", "replay.rs",
            ("9 => {", "9.. => {"), ("_ => return None", "0 => return None")),
    reading("a code that no call has is passed over", "replay.rs",
            ("_ => return None", "_ => return call(progress, input)")),
    reading("a list that is cut ends without a line", "replay.rs",
            (CUT + "        write!", "else { return Ok(()) };\n        write!")),
    reading("number 17 in place of 18", "replay.rs", ("BROKEN_LIST: Fault = 18", "BROKEN_LIST: Fault = 17")),
]

IS_TANK = "matches!(node.node_type, NodeType::Tank(_))"
EACH_TANK = f"for (tank, _) in network.nodes.iter().enumerate().filter(|(_, node)| {IS_TANK})"

PERIODS = [
    period_call("where the period changes, the patterns of the one before stay in force once more",
                "state.apply_patterns(network, last.unwrap_or(time)); self.worked_out.push(time);"),
    period_call("a period has the patterns of the one before to its end",
                "if !goes_on { self.worked_out.push(time); } "
                "let late = *self.worked_out.iter().nth_back(1).unwrap_or(&time); "
                "state.apply_patterns(network, late);"),
    period_call("patterns are worked out once and never again",
                "self.worked_out.push(time); state.apply_patterns(network, self.worked_out[0]);"),
    period_call("a period goes on as long as it would without the pattern start",
                "let period = |time| time / times.pattern_timestep; "
                "let kept = last.filter(|&last| period(last) == period(time)).unwrap_or(time); "
                "state.apply_patterns(network, kept); self.worked_out.push(kept);"),
    period_call("period 0 is in force at the start",
                f"if period(time) > 0 {{ {PATTERNS_APPLIED} }} {EACH_TANK} {{ state.demands[tank] = 0.0; }}"),
    period_call("in a period that goes on tanks keep their demands",
                f"if !goes_on {{ {PATTERNS_APPLIED} self.worked_out.push(time); }}"),
    period_call("reservoirs' heads are worked out once and never again",
                f"let heads = state.heads.clone(); {PATTERNS_APPLIED} self.worked_out.push(time); "
                "if last.is_some() { state.heads = heads; }"),
    period_call("under PDA demand flows are copied the first time only",
                f"let demand_flows = state.demand_flows.clone(); {PATTERNS_APPLIED} self.worked_out.push(time); "
                "if last.is_some() { state.demand_flows = demand_flows; }"),
    period_call("under PDA a tank's demand is copied before it goes back to 0",
                f"let demands = state.demands.clone(); {PATTERNS_APPLIED} "
                "if network.options.demand_model == epanet_rs::model::options::DemandModel::PDA "
                f"{{ {EACH_TANK} {{ state.demand_flows[tank] = demands[tank]; }} }}"),
]

WITH_NEXT = "iter().zip(network.nodes.iter().skip(1).chain(network.nodes.last()))"
TANK_NUMBER = f"network.nodes[..*tank_index].iter().filter(|node| {IS_TANK}).count()"
FIRST_TANK = f"network.nodes.iter().position(|node| {IS_TANK})"
FIRST_LEVEL = "state.heads[first] - network.nodes[first].elevation"

ROWS = [
    reading("a reservoir with a pattern has the head of the one before it in the table", "progress.rs",
            (PATTERNS_APPLIED,
             f"{PATTERNS_APPLIED} let patterned: Vec<usize> = (0..network.nodes.len()).filter(|&node| matches!("
             "&network.nodes[node].node_type, NodeType::Reservoir(found) if found.head_pattern_index.is_some()))"
             ".collect(); for pair in patterned.windows(2).rev() { state.heads[pair[1]] = state.heads[pair[0]]; }")),
    fault("a node's demands are those of the node behind it", STATE,
          (115, "iter()", WITH_NEXT), (116, "n", "(n, next)"), (122, "n.", "next.")),
    fault("a junction's fourth demand is the first of the node behind it", STATE,
          (115, "iter()", WITH_NEXT), (116, "n", "(n, next)"),
          (127, "iter()", "iter().enumerate().map(|(place, own)| match &next.node_type { "
                          "NodeType::Junction(found) if place == 3 => found.demands.first().unwrap_or(own), "
                          "_ => own })")),
    fault("a junction's demands all go by the pattern of the first", STATE,
          (128, "demand.pattern_index", "junction.demands[0].pattern_index")),
    reading("a junction's head is at its node's place in a load", "progress.rs",
            ("let mut heads = load.heads.into_iter();", "let heads = load.heads;"),
            ('heads.next().expect("a head for each junction")', "heads.get(index).copied().unwrap_or(0.0)")),
    fault("a control puts the setting of the one before it in the table", CONTROL,
          (177, "self.setting", "self.setting.map(|own| network.controls.iter()"
                                ".take_while(|control| !std::ptr::eq(*control, self)).last()"
                                ".map_or(own, |control| control.setting.unwrap_or(0.0)))")),
    run_fault("a level control acts by the head at its tank's number", CONTROL,
              (152, "*tank_index", TANK_NUMBER), (160, "*tank_index", TANK_NUMBER)),
    run_fault("a level control's time goes by head and demand at its tank's number", SIMULATION,
              (312, "*tank_index", TANK_NUMBER), (313, "*tank_index", TANK_NUMBER)),
    run_fault("a level control's time is that of the tank whose number its node has", SIMULATION,
              (310, "let", "let Some((tank_index, _)) = &network.nodes.iter().enumerate()"
                           f".filter(|(_, node)| {IS_TANK}).nth(*tank_index) else {{ return usize::MAX }}; let")),
    run_fault("a level control of no tank acts by the first tank's level", CONTROL,
              (150, "false", f"{FIRST_TANK}.is_some_and(|first| {FIRST_LEVEL} - *target >= -L_TOL)"),
              (158, "false", f"{FIRST_TANK}.is_some_and(|first| {FIRST_LEVEL} - *target <= L_TOL)")),
    run_fault("a level control of no tank takes the first tank's time", SIMULATION,
              (315, "usize::MAX",
               f"{FIRST_TANK}.map_or(usize::MAX, |first| match &network.nodes[first].node_type {{ "
               f"NodeType::Tank(tank) => tank.time_to_reach_level({FIRST_LEVEL}, *target, state.demands[first]), "
               "_ => usize::MAX })")),
    run_fault("a tank moves by the demand at its number", STATE,
              (181, "tank_index", TANK_NUMBER.replace("*tank_index", "tank_index"))),
    run_fault("the last tank is not timed", SIMULATION,
              (279, "iter()", f"iter().take(network.nodes.iter().rposition(|node| {IS_TANK}).unwrap_or(0))")),
    fault("a tank's overflow flag is the one at its node's number", SOLVER,
          (482, "tank.overflow", "network.nodes.iter().filter_map(|node| match &node.node_type { "
                                 "NodeType::Tank(found) => Some(found.overflow), _ => None }).nth(tank_index)"
                                 ".unwrap_or(false)")),
]

NOT_LAST_INTO, NOT_LAST_OUT = (f"tank.links_{way}.last() != Some(link_index)" for way in ("to", "from"))

GROUPS = [
    fault("the last link into a tank is not closed", SOLVER,
          *((line, "if", f"if {NOT_LAST_INTO} &&") for line in (487, 490))),
    fault("the last link out of a tank is not closed", SOLVER,
          *((line, "if", f"if {NOT_LAST_OUT} &&") for line in (496, 499))),
    table_call("the last link of a tank is not closed by the table",
               "let before = self.state().statuses.clone(); self.close(); "
               "let (network, state) = parts(&mut self.simulation); for node in &network.nodes { "
               "if let NodeType::Tank(tank) = &node.node_type { "
               "if let Some(&last) = tank.links_from.last().or(tank.links_to.last()) "
               "{ state.statuses[last] = before[last]; } } }"),
    run_fault("the last link into a tank is not summed", SOLVER,
              (486, "state.flows", f"f64::from({NOT_LAST_INTO}) * state.flows")),
    run_fault("the last link out of a tank is not summed", SOLVER,
              (495, "state.flows", f"f64::from({NOT_LAST_OUT}) * state.flows")),
    run_fault("the last link into a tank is one out of it", SOLVER,
              *((line, "state.flows", f"(if {NOT_LAST_INTO} {{ 1.0 }} else {{ -1.0 }}) * state.flows")
                for line in (486, 487, 490))),
    run_fault("a link between two tanks stands at the first of them alone", "model/network/mod.rs",
              (247, ";", "; let joins_tanks = [start_node, end_node].iter()"
                         f".all(|&end| {{ let node = &self.nodes[end]; {IS_TANK} }});"),
              (252, "if", "if !(joins_tanks && start_node < end_node) &&"),
              (255, "if", "if !(joins_tanks && end_node < start_node) &&")),
    reading("a load sums a link between two tanks at its end alone", "progress.rs",
            ("if matches!(network.nodes[link.start_node]", "else if matches!(network.nodes[link.start_node]")),
]

KIND = ("match control.condition { ControlCondition::LowLevel { .. } | ControlCondition::HighLevel { .. } => 0, "
        "ControlCondition::Time { .. } => 1, ControlCondition::ClockTime { .. } => 2, _ => 3 }")

BY_KIND = [
    by_kind("levels act first, then times, then clock times", KIND),
    by_kind("clock times act first, then times, then levels", f"3 - {KIND}"),
    empty_kind("without level controls the smallest time is 0", 0),
    empty_kind("without time controls the smallest time is 0", 1),
    empty_kind("without clock controls the smallest time is 0", 2),
    asked("without time controls the clock controls are not asked",
          f".filter(|control| {KIND} != 2 || network.controls.iter().any(|control| {KIND} == 1))"),
    asked("only the first control of a kind is asked", asked_of_a_kind(1)),
    asked("only the last control of a kind is asked", f".rev(){asked_of_a_kind(1)}"),
    asked("the times of the kind that is asked last hide the others'",
          f".filter(|control| {{ let kind = {KIND}; "
          f"!network.controls.iter().any(|control| kind < {KIND} && {KIND} < 3) }})"),
]

FULL = [
    fault("the last of 32 patterns is none", STATE,
          (128, "default_pattern_idx)", "default_pattern_idx).filter(|&index| index != 31)")),
    asked("the last of 64 controls is not asked", ".take(63)"),
    asked("no more than 32 controls of a kind are asked", asked_of_a_kind(32)),
    asked("no more than 63 controls of a kind are asked", asked_of_a_kind(63)),
    run_fault("the last of 64 controls does not act", STATE,
              (150, "&network.controls", "network.controls.iter().take(63)")),
    run_fault("the tank at the last of 256 nodes is not timed", SIMULATION, (279, "iter()", "iter().take(255)")),
    run_fault("the last of 384 links is not summed", SOLVER,
              *((line, "state.flows", "f64::from(*link_index != 383) * state.flows") for line in (486, 495))),
    lost("the second chunk of a listing begins with the flows of the start", "flows"),
    lost("the second chunk of a listing begins with the heads of the start", "heads"),
]

LEVELS = [
    reading("an arrived level is 0 seconds away", "levels.rs", ('0 => "arrived"', '0 => "0"')),
    reading("a level that is never reached is MAX seconds away", "levels.rs",
            ('usize::MAX => "never"', 'usize::MAX => "18446744073709551615"')),
    reading("arrived and never change places", "levels.rs",
            ('0 => "arrived"', '0 => "never"'), ('usize::MAX => "never"', 'usize::MAX => "arrived"')),
    reading("a second away has arrived", "levels.rs", ("0 =>", "0..=1 =>")),
    reading("what is over 2^32 seconds away is never reached", "levels.rs", ("usize::MAX =>", "4_294_967_296.. =>")),
    reading("the greatest seconds under 2^64 are never", "levels.rs",
            ("usize::MAX =>", "18_446_744_073_709_549_568.. =>")),
    reading("a level is the head", "levels.rs", ("let level = head - elevation;", "let level = head;")),
    reading("a level control goes by the head", "levels.rs",
            ("{to_target} {to_target} {to_either}", "{to_target} {} {to_either}"),
            ('to_either}")', 'to_either}", reach(tank.time_to_reach_level(head, target, demand)))')),
    reading("full or empty is asked for at the target", "levels.rs",
            ("tank.time_to_fill_or_drain(level,", "tank.time_to_fill_or_drain(target,")),
    reading("the time to the target stands for full or empty", "levels.rs",
            ("{to_target} {to_either}", "{to_target} {to_target}"), ("let to_either", "let _")),
    level_fault("a target above the greatest level is a second short of MAX", (35, "MAX", "MAX - 1")),
    level_fault("a target below the least level is a second short of MAX", (38, "MAX", "MAX - 1")),
    level_fault("flow the other way is a second short of MAX", (57, "MAX", "MAX - 1")),
    level_fault("no flow is a second short of MAX", (62, "MAX", "MAX - 1")),
    level_fault("times from 2^64 seconds on begin again at 0",
                *((line, "round()", "round().rem_euclid(18_446_744_073_709_551_616.0)") for line in (51, 54))),
    level_fault("a volume that is no number has arrived", (46, "< 0.5", "< 0.5 || delta_volume.is_nan()")),
]

FAULTS = [
    *TEMPTING, *TANKS, *PATTERNS, *CONTROLS, *LINKS, *CLOSING, *STEPS, *PREMISES, *IMAGES, *LOADS, *CALLS, *DRIVING,
    *SECOND_CLOCK, *FORESEEN, *TIMETABLE, *BY_THE_TABLE, *BROKEN_LISTS, *PERIODS, *ROWS, *GROUPS, *BY_KIND, *FULL,
    *LEVELS,
]
