"""The second clock, worked out once more from document 02, R-10: second by second, without the step's candidates."""

from image import *

STOPS = ("report", "pattern", "hydraulic", "time control", "clock control", "duration")


def timesteps(project):
    options = project.options
    return {"report": options.report, "pattern": options.pattern, "hydraulic": options.hydraulic_in_force()}


def refusals(project):
    """Why the second clock refuses the project: "14, a project with tanks, on the fast path, or with all three
    timesteps above 86,400"."""
    reasons = {
        "tank": bool(project.tanks()),
        "fast path": project.is_on_fast_path(),
        "timesteps": all(seconds > DAY for seconds in timesteps(project).values()),
    }
    return [reason for reason, holds in reasons.items() if holds]


def walk(project, start):
    """The seconds from an instant to where the walk stops, and what stops it there: "one second at a time", to the
    duration at the farthest; none at the duration."""
    report, pattern, hydraulic = timesteps(project).values()
    start_clock, duration = project.options.start_clock, project.options.duration
    times, clock_times = (seconds_of(project, condition) for condition in (TIME, CLOCK_TIME))
    for instant in range(start + 1, duration + 1):
        called = (
            instant % report == 0,
            instant % pattern == 0,
            instant - start == hydraulic,
            instant in times,
            (instant + start_clock) % DAY in clock_times,
            instant == duration,
        )
        if any(called):
            return instant - start, [name for name, calls in zip(STOPS, called) if calls]
    return 0, []


def seconds_of(project, condition):
    return {control.subject for control in project.controls if control.condition == condition}
