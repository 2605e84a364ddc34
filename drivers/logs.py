"""Reads a driver's log: the form is docs/FORMATS.md's. What stands before ` => ` is a trace's line, which the program judges itself; here only what a log has besides is looked at."""
import os
import re
from dataclasses import dataclass, field

HERE = os.path.dirname(os.path.abspath(__file__))
NAMES = set(re.findall(r'codes "([^"]+)"', open(os.path.join(os.path.dirname(HERE), "crates", "egl_names", "specs", "Names.antt"), encoding="utf-8").read()))
DECIMAL, LONGEST_VALUE, MOST_CONFIGS, MOST_LINES = re.compile(r"0|[1-9][0-9]*"), 20, 512, 100_000
# Lines that say nothing of what a driver answered.
OWN = ("post", "await")


class Malformed(Exception):
    """A line out of form, with the reason."""

    def __init__(self, line, reason):
        super().__init__(f"malformed {line} {reason}")
        self.line, self.reason = line, reason


@dataclass
class Answer:
    outcome: str
    value: str = "0"
    list: list = field(default_factory=list)
    bytes: bytes = b""


@dataclass
class Line:
    """A call, or with the name `front` what a window shows. There is no answer where the log was cut behind the call."""

    number: int
    thread: int
    variable: str
    name: str
    words: list
    answer: Answer
    text: str


@dataclass
class Log:
    threads: int
    # The lines of the limit of bytes and of the windows, by their numbers.
    head: dict = field(default_factory=dict)
    # By a config of the driver's its six sizes.
    configs: dict = field(default_factory=dict)
    lines: list = field(default_factory=list)
    crash: str = None

    def cut(self):
        """The line of the call under way at the end, where there is one."""
        return self.lines[-1] if self.lines and self.lines[-1].answer is None and self.lines[-1].name not in OWN else None


def is_number(word, signed=True):
    word = word[1:] if signed and word.startswith("-") and word != "-0" else word
    return bool(DECIMAL.fullmatch(word)) and len(word) <= LONGEST_VALUE


def is_value(word):
    return word in NAMES or is_number(word)


def answer_of(text, number):
    """An answer: an outcome, and then what isn't left out of value, list and bytes."""
    words = text.split()
    if not 1 <= len(words) <= 4 or not (words[0] == "ok" or words[0] in NAMES or is_number(words[0], False)):
        raise Malformed(number, "Answer")
    _, value, listed, read = words + ["0", "[]", "-"][len(words) - 1:]
    items = [item for item in listed[1:-1].split(",")] if listed != "[]" else []
    is_bytes = read == "-" or len(read) % 2 == 0 and re.fullmatch(r"[0-9a-f]+", read)
    if not is_value(value) or not (listed.startswith("[") and listed.endswith("]")) or not all(map(is_value, items)) or not is_bytes:
        raise Malformed(number, "Answer")
    return Answer(words[0], value, items, b"" if read == "-" else bytes.fromhex(read))


def numbers_of(words, count, number, reason):
    if len(words) != count or not all(is_number(word, False) for word in words):
        raise Malformed(number, reason)
    return list(map(int, words))


def body_line(text, number, threads):
    """A call with its answer, or the bytes that a window shows."""
    call, arrow, answer = text.partition(" => ")
    words = call.split()
    if words[0] == "front":
        if len(words) != 4 or arrow or not re.fullmatch(r"-|([0-9a-f]{2})+", words[3]):
            raise Malformed(number, "Answer")
        thread, _ = numbers_of(words[1:3], 2, number, "Thread")
        if thread >= threads:
            raise Malformed(number, "Thread")
        read = b"" if words[3] == "-" else bytes.fromhex(words[3])
        return Line(number, thread, None, "front", [words[2]], Answer("ok", bytes=read), text)
    if not is_number(words[0], False) or int(words[0]) >= threads:
        raise Malformed(number, "Thread")
    variable, rest = (words[1][1:], words[3:]) if len(words) > 2 and words[1].startswith("$") and words[2] == "=" else (None, words[1:])
    if not rest or rest[0] in ("census", "readFront", "readBuffer"):
        raise Malformed(number, "Name")
    return Line(number, int(words[0]), variable, rest[0], rest[1:], answer_of(answer, number) if arrow else None, call.rstrip())


def head_line(log, words, text, number):
    """Takes a line of the head, where it is one that may stand there."""
    if words[0] == "video" and not log.head or words[0] == "window" and not log.configs:
        log.head[number] = text
    elif words[0] == "config":
        config, *sizes = numbers_of(words[1:], 7, number, "Argument")
        if config in log.configs:
            raise Malformed(number, "Argument")
        if len(log.configs) == MOST_CONFIGS:
            raise Malformed(number, "Limit")
        log.configs[config] = tuple(sizes)
    else:
        return False
    return True


def variables_of(words):
    """The variables that arguments name, with their places in lists."""
    return [found for word in words for found in re.findall(r"\$([a-z0-9_]+)(?:\.([0-9]+))?", word)]


def read(text):
    """The log that a text is; or Malformed, with the first line that the program doesn't judge and that is out of form."""
    first, *rest = text.split("\n")
    words = first.rstrip("\r").split()
    if words[:2] != ["egl-log", "1"] or len(words) != 3 or not is_number(words[2], False):
        raise Malformed(1, "Header")
    if not 1 <= int(words[2]) <= 16:
        raise Malformed(1, "Limit")
    log, assigned, in_head = Log(int(words[2])), set(), True
    for number, raw in enumerate(rest, 2):
        text = raw.removesuffix("\r")
        words = text.split()
        if not words or text.startswith("#"):
            continue
        if log.crash or log.cut() and words[0] != "crash":
            raise Malformed(log.cut().number if log.cut() else number, "Answer")
        if in_head and head_line(log, words, text, number):
            continue
        in_head = False
        if words[0] == "crash":
            if len(words) != 2 or not log.lines:
                raise Malformed(number, "Answer")
            log.crash = words[1]
            continue
        line = body_line(text, number, log.threads)
        if any(variable not in assigned for variable, _ in variables_of(line.words)) or line.variable and line.variable in assigned:
            raise Malformed(number, "Variable")
        if len(log.lines) == MOST_LINES:
            raise Malformed(number, "Limit")
        assigned.add(line.variable)
        log.lines.append(line)
    return log
