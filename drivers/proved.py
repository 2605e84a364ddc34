"""The judgement of a log by `egl_judge`, which is proved."""
import re
import subprocess

from differences import Difference, Judgement
from logs import Malformed
from oracle import Trouble, judging
from waivers import calls_of
from zeros import may_be_zeros, with_zeros

HEAD = re.compile(r"judged ([0-9]+) agreed ([0-9]+) differences [0-9]+ after [0-9]+ unjudged [0-9]+ own ([0-9]+) (?:cut|whole)")
HOLDS, DIFFERS, MALFORMED = 0, 9, 4


def judgement_of(text, log):
    """What the program wrote of a log."""
    head, *lines = text.split("\n")
    lines_judged, agreed, own = map(int, HEAD.fullmatch(head).groups())
    found, names = Judgement(lines_judged, agreed, own), dict(calls_of(log))
    for line in lines[:lines.index("end")]:
        word, number, *rest = line.split(" ")
        at = int(number)
        if word == "difference":
            # A window's front is no call.
            found.differences.append(Difference(at, rest[0], *rest[-2:], " ".join(rest[1:]), names.get(at, "front")))
        elif word == "after":
            found.after.append((at, int(rest[0])))
        elif word == "unjudged":
            found.unjudged.append((at, rest[0]))
        else:
            found.cut = line
    return found


class Proved:
    def __init__(self, path=None):
        self.program = judging(path)

    def asked(self, log, delta):
        ran = subprocess.run([self.program, str(delta)], input=log.encode(), capture_output=True)
        said = ran.stdout.decode()
        if ran.returncode == MALFORMED:
            _, line, reason = said.split()
            raise Malformed(int(line), reason)
        if ran.returncode not in (HOLDS, DIFFERS):
            raise Trouble(ran.returncode, said)
        return judgement_of(said, log)

    def judged(self, log, delta=0):
        """The judgement of a log; or Malformed, or Trouble."""
        found = self.asked(log, delta)
        asked = may_be_zeros(log, found)
        if asked:
            again = self.asked(with_zeros(log, asked), 0)
            left = {difference.line: difference for difference in again.differences}
            for zeros in asked:
                zeros.difference.is_zero = zeros.are_all(left.get(zeros.difference.line))
        return found
