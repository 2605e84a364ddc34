"""A driver as it is tried: what it is called, the surroundings in which it runs, and its log of a trace."""
import os
import subprocess

HERE = os.path.dirname(os.path.abspath(__file__))
# By its name what chooses it on a machine without a GPU.
SURROUNDINGS = {
    "mesa-llvmpipe": {"EGL_PLATFORM": "surfaceless", "LIBGL_ALWAYS_SOFTWARE": "1", "GALLIUM_DRIVER": "llvmpipe"},
    "mesa-softpipe": {"EGL_PLATFORM": "surfaceless", "LIBGL_ALWAYS_SOFTWARE": "1", "GALLIUM_DRIVER": "softpipe"},
    # With windows: it wants an X server, as xvfb-run gives one.
    "mesa-llvmpipe-x11": {"EGL_PLATFORM": "x11", "LIBGL_ALWAYS_SOFTWARE": "1", "GALLIUM_DRIVER": "llvmpipe"},
    "angle": {"ANGLE_DEFAULT_PLATFORM": "swiftshader", "EGL_LIBRARY": "/usr/lib/chromium/libEGL.so", "GLES_LIBRARY": "/usr/lib/chromium/libGLESv2.so"},
}
PLAYED, CUT, LIMIT = 0, 10, 120


class NotPlayed(Exception):
    """The player's status and its words."""


class Driver:
    def __init__(self, name, player=None):
        self.name, self.player = name, player or os.environ.get("EGL_PLAY") or os.path.join(HERE, "play")
        # What is set already stays: another platform, or the libraries of another build.
        self.surroundings = {**SURROUNDINGS.get(name, {}), **os.environ}

    def log(self, trace, cure=None):
        """The log of a trace; it is cut where the driver crashed or hung."""
        try:
            played = subprocess.run([self.player], input=trace.encode(), capture_output=True, env={**self.surroundings, **({"PLAY_CURE": cure} if cure else {})}, timeout=LIMIT)
        except (OSError, subprocess.TimeoutExpired) as fault:
            raise NotPlayed(str(fault))
        if played.returncode not in (PLAYED, CUT):
            raise NotPlayed(f"status {played.returncode}: {played.stderr.decode(errors='replace').strip()}")
        return played.stdout.decode()
