"""What examples/fleet gives to schedulers, read by their own clients where these are installed."""

import importlib.util
import json
import re
import shutil
import subprocess
import tomllib

from lab.fleet_call.agreeing import MOST_EXPOSED, Agreeing, filled
from lab.fleet_call.parts import FLEET
from lab.fleet_call.units import Confined
from operators.models.lines import settings_of

KUBERNETES, NOMAD = FLEET.with_name("kubernetes.yaml"), FLEET.with_name("confbridge.nomad")
# No cluster is asked.
KUBECTL = ["kubectl", "--kubeconfig=/dev/null"]


def missing(wanted, found, at=""):
    """The fields of one value that another one doesn't have, or has otherwise."""
    if isinstance(wanted, dict) and isinstance(found, dict):
        return [one for key in wanted for one in missing(wanted[key], found.get(key), f"{at}.{key}")]
    if isinstance(wanted, list) and isinstance(found, list) and len(wanted) <= len(found):
        return [one for number, (a, b) in enumerate(zip(wanted, found)) for one in missing(a, b, f"{at}[{number}]")]
    return [] if str(wanted) == str(found) or wanted == {} else [at]


class Manifests(Agreeing, Confined):
    """The manifests of a fleet and of a gateway."""

    def __init__(self, check, folder, program):
        self.check, self.folder = check, folder

    def yaml(self, path):
        """The objects of a file, None where nothing reads them."""
        if not importlib.util.find_spec("yaml"):
            print(f"skipped: {path.name} (there is no python3-yaml)")
            return None
        import yaml

        return list(yaml.safe_load_all(path.read_text()))

    def step_kubernetes(self):
        self.objects = self.yaml(KUBERNETES)
        if not self.objects:
            return
        kinds = [(one["kind"], one["metadata"]["name"]) for one in self.objects]
        self.check(("StatefulSet", "confbridge") in kinds, f"{len(kinds)} objects for Kubernetes", kinds)
        config = next(one["data"] for one in self.objects if one["kind"] == "ConfigMap")
        self.read_settings({name: filled(text) for name, text in config.items()})
        if not shutil.which("kubectl"):
            print("skipped: kubectl's reading of the manifests (there is no kubectl)")
            return
        for one in self.objects:
            if one["kind"] == "StatefulSet":
                self.read_by_kubectl(one, ["env", "TRIED=yes"])
            elif one["kind"] == "Service":
                self.read_by_kubectl(one, ["selector", f"app={one['spec']['selector']['app']}"])

    def read_settings(self, texts):
        """Whether settings that a scheduler writes are those that the bridge and the agents take."""
        said = settings_of(texts["serve.toml"])
        self.check(said.startswith("udp 10.0.0.1:5004 and tcp 127.0.0.1:7000"), "the bridge's settings are good", said)
        for path in FLEET.with_name("fleet.toml"), FLEET.parents[1] / "gateway/gateway.toml":
            if path.name in texts:
                here, there = tomllib.loads(path.read_text()), tomllib.loads(texts[path.name])
                # Bridges have names of their own.
                same = all(here[key].keys() == there.get(key, {}).keys() for key in here if key != "bridges")
                self.check(same, f"{path.name} has the keys of {path.parent.name}/{path.name}", there)

    def read_by_kubectl(self, wanted, change):
        """kubectl's types keep each field: what it doesn't know is lost. Its other dry runs ask a cluster."""
        words = [*KUBECTL, "set", change[0], "--local", "--dry-run=client", "-o", "json", "-f", "-", change[1]]
        done = subprocess.run(words, input=json.dumps(wanted), capture_output=True, text=True, check=False)
        for one in wanted["spec"].get("template", {}).get("spec", {}).get("containers", []):
            one.get("env", []).sort(key=lambda each: each["name"])
        found = json.loads(done.stdout) if done.returncode == 0 else {}
        for one in found.get("spec", {}).get("template", {}).get("spec", {}).get("containers", []):
            one["env"] = sorted((each for each in one["env"] if each["name"] != "TRIED"), key=lambda each: each["name"])
        lost = missing(wanted, found)
        name = wanted["metadata"]["name"]
        self.check(not lost, f"kubectl knows each field of the {wanted['kind']} {name}", lost or done.stderr)

    def step_podman(self):
        """Says that podman plays no pod here: that takes the image of Containerfile, which this check doesn't build."""
        print("skipped: podman kube play (this check builds no image)")

    def step_nomad(self):
        """The settings that the job writes, whether or not Nomad is here to read the job."""
        form = r'destination = "local/(\S+)"\n +data += <<-SETTINGS\n(.*?)\n +SETTINGS'
        texts = dict(re.findall(form, NOMAD.read_text(), re.DOTALL))
        given = {"NOMAD_IP_udp": "10.0.0.1", "NOMAD_IP_agent": "10.0.0.1", "NOMAD_ALLOC_INDEX": "0"}
        filled = lambda text: re.sub(r'\{\{ env "(\w+)" \}\}', lambda found: given[found[1]], text)
        self.read_settings(
            {name: re.sub("^ +", "", filled(text), flags=re.MULTILINE) for name, text in texts.items()}
        )
        if not shutil.which("nomad"):
            print("skipped: Nomad's job (there is no nomad)")
            return
        words = ["nomad", "job", "validate", "-var", "etcd=http://127.0.0.1:2379", NOMAD]
        done = subprocess.run(words, capture_output=True, text=True, check=False)
        self.check(done.returncode == 0, "nomad reads the job", done.stdout + done.stderr)

    def step_units(self):
        if not shutil.which("systemd-analyze"):
            print("skipped: the units (there is no systemd-analyze)")
            return
        # Those of the bridge, of its page and of the gateway too.
        for path in sorted(FLEET.parents[1].rglob("*.service")):
            # A unit of a name is read as one of its instances.
            copy = self.folder / path.name.replace("@.", "@a.")
            # The programs needn't be installed where this is tried.
            copy.write_text(re.sub(r"ExecStart=\S+", "ExecStart=/bin/true", path.read_text()))
            done = subprocess.run(["systemd-analyze", "verify", copy], capture_output=True, text=True, check=False)
            self.check(done.returncode == 0 and not done.stderr, f"systemd reads {path.name}", done.stderr)
            words = ["systemd-analyze", "security", "--offline=true", copy]
            done = subprocess.run(words, capture_output=True, text=True, check=False)
            said = re.search(r"Overall exposure level for \S+: ([0-9.]+)", done.stdout)
            good = said and float(said[1]) <= MOST_EXPOSED
            self.check(good, f"{path.name} is exposed by {said and said[1]} of 10", done.stderr or done.stdout[-500:])

    def close(self):
        pass
