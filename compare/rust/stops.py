"""The stops of a works without tanks, worked out once more from document 02, R-14: by its rules, without a step."""

from image import *
from walk import seconds_of

CAUSES = ("report", "pattern", "time control", "clock control", "duration")
REASONS = ("tank", "fast path", "hydraulic", "day")


def shorter_timestep(project):
    return min(project.options.report, project.options.pattern)


def unforeseen(project):
    """Why the stops are not known beforehand: "Where the hydraulic timestep in force is at least the report or the
    pattern timestep, the report or the pattern timestep is at most 86,400, there are no tanks and the fast path is
    off"."""
    holds = (
        bool(project.tanks()),
        project.is_on_fast_path(),
        project.options.hydraulic_in_force() < shorter_timestep(project),
        shorter_timestep(project) > DAY,
    )
    return [reason for reason, is_so in zip(REASONS, holds) if is_so]


def stops(project, until=LONGEST_TIME):
    """Each stop of a run from its start that is not past an instant, rising, with its causes: "all above 0 and not past
    the duration"."""
    end = min(until, project.options.duration)
    instants = [set(instants) for instants in instants_by_cause(project, end)]
    return {
        instant: [cause for cause, of_cause in zip(CAUSES, instants) if instant in of_cause]
        for instant in sorted(set().union(*instants))
        if 0 < instant <= end
    }


def instants_by_cause(project, end):
    """The instants that each cause sets: all up to the end, and perhaps some outside."""
    options = project.options
    yield range(options.report, end + 1, options.report)
    yield range(options.pattern, end + 1, options.pattern)
    yield seconds_of(project, TIME)
    yield [
        instant
        for clock in seconds_of(project, CLOCK_TIME)
        for instant in range((clock - options.start_clock) % DAY, end + 1, DAY)
    ]
    yield [options.duration]


def timetable(project):
    """What the program `timetable` prints for a project."""
    if unforeseen(project):
        return "none\n"
    instants = stops(project)
    return "".join(f"{instant}\n" for instant in instants) + f"steps {len(instants)}\n"
