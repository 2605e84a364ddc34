"""Asks the program what the specification answers to a trace whose order is forced."""
import os
import re
import subprocess

HERE = os.path.dirname(os.path.dirname(os.path.abspath(__file__)))
# By the names of the launchers what they build.
BUILT = {name: os.path.join(HERE, "crates", crate, "out", crate) for name, crate in {"egl_cli": "egl_main", "egl_explain": "egl_explain_main", "egl_judge": "egl_judge_main"}.items()}


class Trouble(Exception):
    """The program didn't play the trace: its status, and its first line."""

    def __init__(self, status, said):
        super().__init__(said)
        self.status, self.said = status, said


def beside(path, built, names):
    """Programs of these names in the folder of the egl_cli at a path, where it is another than the one that is built; else those that are built, or the launchers."""
    path = path or os.environ.get("EGL_CLI")
    if path and path != BUILT["egl_cli"]:
        folder, name = os.path.split(path)
        return [os.path.join(folder, name.replace("egl_cli", other)) for other in names]
    return built if path or all(map(os.path.exists, built)) else [os.path.join(HERE, other) for other in names]


def programs(path=None):
    """The program that plays, and the one that explains."""
    names = ["egl_cli", "egl_explain"]
    return beside(path, [BUILT[name] for name in names], names)


def judging(path=None):
    """The program that judges."""
    return beside(path, [BUILT["egl_judge"]], ["egl_judge"])[0]


class Oracle:
    def __init__(self, path=None):
        self.player, self.explainer = programs(path)

    def run(self, words, text):
        ran = subprocess.run(words, input=text.encode(), capture_output=True)
        return ran.returncode, ran.stdout.decode()

    def answers(self, trace):
        """By the number of each line its outcome, its value, its list and its bytes."""
        status, said = self.run([self.player, "serial"], trace)
        if status != 0:
            raise Trouble(status, said)
        found = {}
        for line in said.split("\n")[1:]:
            if line.startswith("census "):
                break
            _, number, outcome, value, listed, read = line.split(" ")
            found[int(number)] = outcome, value, listed[1:-1].split(",") if listed != "[]" else [], b"" if read == "-" else bytes.fromhex(read)
        return found

    def refusals(self, trace):
        """By the number of each line that is refused, every error of a condition that holds, with why."""
        _, said = self.run([self.explainer], trace)
        found, at = {}, 0
        for line in said.split("\n"):
            numbered, condition = re.match(r" *([0-9]+) \| ", line), re.match(r" +\| [> ] ((?:EGL|GL)_[A-Z_]+): (.*)", line)
            if condition:
                found.setdefault(at, []).append(condition.groups())
            elif numbered:
                at = int(numbered[1])
        return found
