"""One encounter, second by second: what the engine was told, its reports, and what the pilot did."""
from daidalus_files import moment_lines

from .flight import fly


class Traced:
    """A flight's states and reports."""

    def __init__(self, encounter, study, guided):
        self.study, self.states, self.reports, self.told = study, [], [], []
        self.ages = study.sensors.has_errors
        self.run = fly(encounter, study, guided, self.note)

    def note(self, second, own, traffic):
        self.told.append((own, traffic))
        self.states.append(state_lines(second, own, traffic, self.ages))
        self.reports.append(self.study.guidance.report(second))

    def text(self):
        """The state lines of all seconds."""
        return "format 2\n" * self.ages + "".join(self.states)

    def report(self):
        return b"".join(self.reports)


def state_lines(second, own, traffic, with_ages):
    """A moment's lines."""
    return "\n".join([*moment_lines(second, own, traffic, 1 + with_ages), ""])


def summary_of(run):
    """What a flight gave, in a line."""
    parts = [f"loss {'none' if run.loss is None else f'on second {run.loss}'}", f"near collision {'yes' if run.nmac else 'no'}",
             f"severity {run.severity:.3f}", f"alerts {' '.join(f'{level}:{second}' for level, second in sorted(run.alerts.items())) or 'none'}",
             f"advices {run.advices}"]
    return ", ".join(parts)
