"""The programs of units, each run with what its unit takes from it."""

import contextlib
import os
import shutil
import signal
import socket
import subprocess
import urllib.request

from checks.confined import USER, confined, lacks
from lab.fleet_call.parts import FLEET, AgentPart, BridgePart, EtcdPart, begun, ended, secret_file, until
from lab.gateway_call.parts import Parts
from lab.sip import kamailio_lacks
from operators.serving import free_port
from operators.shared import CRATES, ROOT

EXAMPLES = ROOT / "examples"
GATEWAY = EXAMPLES / "gateway/gateway.py"
# That of the system: another user may not have this test's.
PYTHON = "/usr/bin/python3"


class Confined:
    """The step of a check of manifests that runs the units' programs. `check settings` runs the bridge as its unit."""

    def step_confined(self):
        unit = EXAMPLES / "fleet/systemd/confbridge-fleet.service"
        self.folder.chmod(0o755)
        if lacks() or not os.path.exists(PYTHON):
            print(f"skipped: programs as their units run them (there is no {lacks() or PYTHON})")
            return
        reads = subprocess.run(confined(unit, ["/usr/bin/test", "-r", FLEET]), check=False).returncode == 0
        if not reads:
            print(f"skipped: programs as their units run them (their user can't read {ROOT})")
            return
        self.confined_gateway()
        self.confined_agent(unit)
        self.confined_page()

    def confined_gateway(self):
        """rtpengine, Kamailio and the gateway's agent."""
        parts = Parts(self.folder, 5004, 7000)
        parts.path.chmod(0o644)
        missing = {"rtpengine": "" if shutil.which("rtpengine") else "rtpengine", "kamailio": kamailio_lacks()}
        for part, answers in ("rtpengine", parts.pings), ("kamailio", parts.takes_calls), ("agent", parts.serves):
            if missing.get(part):
                print(f"skipped: confbridge-{part}.service (there is no {missing[part]})")
                continue
            unit, log = EXAMPLES / f"gateway/systemd/confbridge-{part}.service", self.folder / f"confined_{part}.log"
            process = begun(confined(unit, [PYTHON, "-B", GATEWAY, part, parts.path]), log)
            took = until(answers, 30)
            self.check(took is not None, f"{unit.name} leaves its program what it needs", log.read_text()[-1500:])
            ended(process, signal.SIGTERM)

    def confined_agent(self, unit):
        """The agent of a fleet, with its secret, etcd and a bridge's model."""
        if not shutil.which("etcd"):
            print(f"skipped: {unit.name} (there is no etcd)")
            return

        def starts(command, log):
            if os.geteuid() == 0:
                os.chown(secret_file(self.folder), USER, USER)
            return begun(confined(unit, command), log)

        etcd, bridge = EtcdPart(self.folder), BridgePart("a", self.folder, None)
        agent = AgentPart(bridge, self.folder, etcd, start=starts)
        try:
            took = until(lambda: agent.knows() == 1, 30)
            self.check(took is not None, f"{unit.name} leaves its program what it needs", agent.log.read_text()[-1500:])
            said = agent.ask("join", room=1, address="127.0.0.1:6000")
            self.check(said[0] == 200, "and a member joins by it", said)
        finally:
            for one in agent, bridge, etcd:
                one.close()

    def confined_page(self):
        """The operators' page, where its program is built."""
        unit, program = EXAMPLES / "confbridge-page.service", CRATES / "desk_page/out/desk_page"
        if subprocess.run(confined(unit, ["/usr/bin/test", "-x", program]), check=False).returncode:
            print(f"skipped: {unit.name} (the unit's user can't run {program.relative_to(ROOT)})")
            return
        bridge, port = BridgePart("page", self.folder, None), free_port(socket.SOCK_STREAM)
        log = self.folder / "confined_page.log"
        words = [program, "--bridge", f"127.0.0.1:{bridge.tcp}", "--listen", f"127.0.0.1:{port}"]
        page = begun(confined(unit, words), log)

        def answers():
            with contextlib.suppress(OSError), urllib.request.urlopen(f"http://127.0.0.1:{port}/", timeout=5) as said:
                return b"<title>" in said.read()
            return False

        took = until(answers, 30)
        self.check(took is not None, f"{unit.name} leaves its program what it needs", log.read_text()[-1500:])
        ended(page, signal.SIGTERM)
        bridge.close()
