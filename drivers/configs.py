"""Which configs of a driver are ours, and the words of a log's calls with ours in their place."""
import re

from shadow import CONFIGS

# By a call the place of its config.
CONFIG_PLACES = {"eglGetConfigAttrib": 1, "eglCreateWindowSurface": 1, "eglCreatePbufferSurface": 1, "eglCreateContext": 1}
WORDS = {**dict.fromkeys(("EGL_FALSE", "GL_FALSE", "EGL_DEFAULT_DISPLAY", "EGL_NO_DISPLAY", "EGL_NO_CONTEXT", "EGL_NO_SURFACE", "EGL_NO_SYNC", "EGL_NO_IMAGE"), 0), "EGL_TRUE": 1, "GL_TRUE": 1, "EGL_DONT_CARE": -1, "EGL_FOREVER": -1}


def number_of(word):
    """The number that a word of a trace stands for, or the word where it is a name's."""
    if re.fullmatch(r"-?[0-9]+", word):
        return int(word)
    return int(word, 16) if word.startswith("0x") else WORDS.get(word, word)


class Configs:
    def __init__(self, log):
        self.log = log
        self.by_variable = {line.variable: line for line in log.lines if line.variable}
        self.ours = self.mapped()

    def mapped(self):
        """By a config of the driver's that of ours which has its sizes."""
        if not self.log.configs:
            return {config: config for config in CONFIGS}
        free, found = {}, {}
        for config, sizes in CONFIGS.items():
            free.setdefault(sizes, config)
        for theirs, sizes in self.log.configs.items():
            if sizes in free:
                found[theirs] = free.pop(sizes)
        return found

    def config(self, word):
        """Our config for a word of the log, or None."""
        listed = re.fullmatch(r"\$([a-z0-9_]+)\.([0-9]+)", word)
        if listed:
            answer = self.by_variable[listed[1]].answer
            items = answer.list if answer else []
            word = items[int(listed[2])] if int(listed[2]) < len(items) else "0"
        theirs = number_of(word)
        return self.ours.get(theirs, None if self.log.configs or listed else theirs)

    def words(self, line):
        """The words of a call as the program plays it."""
        words = list(line.words)
        place = CONFIG_PLACES.get(line.name)
        if place is not None and place < len(words):
            words[place] = str(self.config(words[place]))
        if line.name == "eglChooseConfig" and len(words) == 2:
            words[1] = self.chosen(words[1])
        if line.name == "eglClientWaitSync" and len(words) == 4 and words[3].startswith(("-", "EGL_FOREVER")):
            words[3] = "0"
        return words

    def chosen(self, listed):
        """An attribute list with our config for that which it asks for."""
        items = listed[1:-1].split(",")
        for k in range(0, len(items) - 1, 2):
            if items[k] == "EGL_CONFIG_ID" and items[k + 1] not in ("-1", "EGL_DONT_CARE"):
                items[k + 1] = str(self.config(items[k + 1]))
        return f"[{','.join(items)}]"
