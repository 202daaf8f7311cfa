"""Firefox without a window, in a call: it takes part by ICE on loopback, and plays sound."""

import atexit
import os
import pathlib
import subprocess
import time

from checks import firefox
from lab.waits import ended

# Addresses of ICE are those of all interfaces, loopback among them, and no page waits for a press to play sound.
PREFERENCES = {
    "media.peerconnection.ice.loopback": True,
    "media.peerconnection.ice.obfuscate_host_addresses": False,
    "media.autoplay.default": 0,
    "media.autoplay.blocking_policy": 0,
} | firefox.PREFERENCES


class Firefox(firefox.Firefox):
    """Firefox with a profile of its own, one tab, and a device for sound."""

    def __init__(self, command, folder):
        place = pathlib.Path(folder) / f"sound{time.monotonic_ns()}"
        place.mkdir()
        null, own = subprocess.DEVNULL, {"HOME": str(place), "XDG_RUNTIME_DIR": str(place)}
        # Without a device for sound Firefox plays none. This one takes all.
        server = ["pulseaudio", "-n", "--daemonize=no", "--exit-idle-time=-1", "--load=module-null-sink"]
        server.append(f"--load=module-native-protocol-unix socket={place}/sound auth-anonymous=1")
        self.sound = subprocess.Popen(server, stdin=null, stdout=null, stderr=null, env=os.environ | own)
        # A tool that fails leaves none behind.
        atexit.register(self.sound.terminate)
        super().__init__(command, folder, PREFERENCES, {"PULSE_SERVER": f"unix:{place}/sound"})

    def close(self):
        super().close()
        self.sound.terminate()
        ended(self.sound)
