"""What is found in a log, as `egl_judge` writes it."""
from dataclasses import dataclass, field


@dataclass
class Difference:
    line: int
    kind: str
    expected: str
    found: str
    # What stands in its line behind the kind.
    text: str
    name: str
    is_zero: bool = False

    def spelled(self):
        return f"difference {self.line} {self.kind} {self.text}"


@dataclass
class Judgement:
    lines: int = 0
    agreed: int = 0
    own: int = 0
    differences: list = field(default_factory=list)
    after: list = field(default_factory=list)
    unjudged: list = field(default_factory=list)
    cut: str = None

    def notes(self):
        """What is said of each line that doesn't agree, and of the call under way at the end."""
        said = [(difference.line, difference.spelled()) for difference in self.differences]
        said += [(line, f"after {line} {cause}") for line, cause in self.after] + [(line, f"unjudged {line} {why}") for line, why in self.unjudged]
        return [*(line for _, line in sorted(said)), *([self.cut] if self.cut else [])]

    def text(self):
        head = f"judged {self.lines} agreed {self.agreed} differences {len(self.differences)} after {len(self.after)} unjudged {len(self.unjudged)} own {self.own} {'cut' if self.cut else 'whole'}"
        return "\n".join([head, *self.notes(), "end"]) + "\n"

    def status(self):
        return 9 if self.differences else 0
