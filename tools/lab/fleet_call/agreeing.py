"""Whether what examples/ gives to schedulers agrees with itself: images, paths, ports, volumes and settings."""

import itertools
import re
import tomllib

from operators.models.lines import settings_of
from operators.shared import ROOT

EXAMPLES = ROOT / "examples"
# Programs of Debian's packages, by the package that an image has to install.
PACKAGED = {"etcd": "etcd-server", "sh": None}
# What a scheduler fills in.
FILLED = {"@IP@": "10.0.0.1", "@POD@": "10.0.0.1", "@NAME@": "confbridge-0", "@FIRST@": "1000000000"}
# What closes a pod and a container of it, by the way to a field.
OF_POD = {
    "automountServiceAccountToken": False, "securityContext.runAsNonRoot": True, "securityContext.runAsUser": 10001,
    "securityContext.seccompProfile.type": "RuntimeDefault",
}  # fmt: skip
OF_CONTAINER = {
    "securityContext.allowPrivilegeEscalation": False, "securityContext.readOnlyRootFilesystem": True,
    "securityContext.capabilities.drop": ["ALL"],
}  # fmt: skip
# What closes a task of the Nomad job.
OF_TASK = (
    'user = "10001:10001"', "readonly_rootfs = true", 'cap_drop = ["all"]', 'security_opt = ["no-new-privileges"]',
    "pids_limit =", "memory_max =",
)  # fmt: skip
# And a unit, beside `systemd-analyze security`, whose number is at most this one.
OF_UNIT = (
    "DynamicUser=yes", "NoNewPrivileges=yes", "CapabilityBoundingSet=", "SystemCallFilter=@system-service",
    "SystemCallArchitectures=native", "RestrictNamespaces=yes", "LockPersonality=yes", "MemoryDenyWriteExecute=yes",
    "ProtectSystem=strict", "ProtectHome=yes", "ProtectClock=yes", "ProtectHostname=yes", "ProtectKernelTunables=yes",
    "ProtectKernelModules=yes", "ProtectKernelLogs=yes", "ProtectControlGroups=yes", "ProtectProc=invisible",
    "PrivateDevices=yes", "PrivateUsers=yes", "UMask=0077", "LimitNOFILE=", "TasksMax=", "RestartSec=",
    "StartLimitIntervalSec=0",
)  # fmt: skip
VALUED = ("LimitNOFILE=", "TasksMax=", "RestartSec=")
MOST_EXPOSED = 2.0
# What the heads of the manifests have to say: the ports that stay closed to others.
CLOSED = {
    "kubernetes.yaml": (7000, 7080, 8090, 8091, 2223, 2224, 8095, 5060, 5004), "confbridge.nomad": (7000, 8095, 5004),
}  # fmt: skip


def port_of(address):
    return int(address.rpartition(":")[2])


def field(value, way):
    """The field at the end of a way such as `securityContext.runAsUser`, None where there is none."""
    for key in way.split("."):
        value = value.get(key) if isinstance(value, dict) else None
    return value


def unclosed(value, wanted):
    """The fields that aren't as they have to be."""
    return [f"{way}: {field(value, way)}" for way, good in wanted.items() if field(value, way) != good]


def filled(text):
    return re.sub("@[A-Z]+@", lambda found: FILLED[found[0]], text)


class Image:
    """An image as its Containerfile makes it: the files of a path in it, and the packages."""

    def __init__(self, path):
        text = path.read_text().replace("\\\n", " ")
        self.last = text.splitlines()[-1]
        self.packages = re.search(r"install -y --no-install-recommends ([^&]*)", text)[1].split()
        self.copies = [line.split()[1:] for line in text.splitlines() if line.startswith("COPY ")]

    def sources(self):
        """What is copied from the tree, but for the programs that are built first."""
        return [ROOT / one for *froms, _ in self.copies for one in froms if "/out/" not in one]

    def has(self, path):
        """Whether a program or file is in the image."""
        for *froms, to in self.copies:
            for one in froms:
                name = one.rpartition("/")[2]
                if to.endswith("/"):
                    if path in (name, to + name):
                        return True
                elif path == to or path.startswith(f"{to}/") and (ROOT / one / path[len(to) + 1 :]).is_file():
                    return True
        return path in PACKAGED and PACKAGED[path] in (None, *self.packages)


class Agreeing:
    """The steps of a check of manifests that ask no scheduler. They need python3-yaml."""

    def agree(self, text, pairs):
        """Checks that the values of each pair are the same. They are given by what they are."""
        wrong = {name: values for name, values in pairs.items() if values[0] != values[1]}
        self.check(not wrong, f"{text}: {', '.join(pairs)}", wrong)

    def step_compose(self):
        compose = self.yaml(EXAMPLES / "gateway/compose.yaml")
        if not compose:
            return
        (compose,), image = compose, Image(EXAMPLES / "gateway/Containerfile")
        self.check(image.last == "USER 10001:10001", "its image has a user that isn't root", image.last)
        services = compose["services"]
        built = {one["build"]["dockerfile"] for one in services.values()}
        self.check(built == {"examples/gateway/Containerfile"}, "each service of compose.yaml has the image", built)
        self.check(all(one.exists() for one in image.sources()), "what that copies is there", image.sources())
        named = [one["command"][0] for one in services.values()]
        named += [word for one in services.values() for word in one["command"] if word.startswith("/etc/")]
        self.check(all(map(image.has, named)), f"it has {', '.join(sorted(set(named)))}", named)
        unknown = [each for one in services.values() for each in one.get("depends_on", []) if each not in services]
        self.check(not unknown, "services wait for services that there are", unknown)
        parts = {one["command"][1] for one in services.values() if one["command"][0].endswith("gateway.py")}
        self.check(parts == {"agent", "rtpengine", "kamailio"}, "the gateway's three parts are services", parts)
        serve = tomllib.loads((EXAMPLES / "serve.toml").read_text())
        gateway = tomllib.loads((EXAMPLES / "gateway/gateway.toml").read_text())
        pairs = {key: (serve[key], gateway["bridge"][key]) for key in ("udp", "tcp")}
        self.agree("settings agree", pairs | {"--bridge": (serve["tcp"], services["page"]["command"][2])})

    def step_pods(self):
        """kubernetes.yaml: volumes, images, ports and names."""
        objects = self.yaml(EXAMPLES / "fleet/kubernetes.yaml")
        if not objects:
            return
        by_kind = lambda kind: {one["metadata"]["name"]: one for one in objects if one["kind"] == kind}
        maps, services, sets = map(by_kind, ("ConfigMap", "Service", "StatefulSet"))
        image = Image(EXAMPLES / "fleet/Containerfile")
        for name, one in sets.items():
            spec, labels = one["spec"]["template"]["spec"], one["spec"]["template"]["metadata"]["labels"]
            containers = [*spec.get("initContainers", []), *spec["containers"]]
            given = {each["name"] for each in spec.get("volumes", [])}
            given |= {each["metadata"]["name"] for each in one["spec"].get("volumeClaimTemplates", [])}
            mounted = {each["name"] for container in containers for each in container.get("volumeMounts", [])}
            self.agree(f"the pods of {name}", {
                "volumes": (given, mounted),
                "labels": (one["spec"]["selector"]["matchLabels"], labels),
                "their service's selector": (services[one["spec"]["serviceName"]]["spec"]["selector"], labels),
                "images": ({each["image"] for each in containers}, {"confbridge-fleet"}),
                "maps": (
                    {each["configMap"]["name"] for each in spec.get("volumes", []) if "configMap" in each} - {*maps},
                    set(),
                ),
            })  # fmt: skip
            named = [each["command"][0] for each in containers]
            named += re.findall(r"/usr/local/lib/\S+\.py", str([each.get("lifecycle") for each in containers]))
            self.check(all(map(image.has, named)), f"the image has {', '.join(sorted(set(named)))}", named)
            self.closed_pod(name, spec, containers)
        self.check(image.last == "USER 10001:10001", "the image has a user that isn't root", image.last)
        self.check(all(one.exists() for one in image.sources()), "what the image copies is there", image.sources())
        self.ports_of_pods(maps["confbridge"]["data"], services, sets)
        self.closed_etcd(by_kind("NetworkPolicy"), sets["confbridge-etcd"]["spec"]["template"])
        self.closed_head("kubernetes.yaml")

    def closed_pod(self, name, spec, containers):
        """What a pod and its containers may not do, and what they may take."""
        self.check(not unclosed(spec, OF_POD), f"the pods of {name} are closed", unclosed(spec, OF_POD))
        for one in containers:
            lacks = unclosed(one, OF_CONTAINER)
            lacks += [way for way in ("resources.limits.memory", "resources.requests.cpu") if not field(one, way)]
            lacks += ["a probe"] if one in spec["containers"] and "livenessProbe" not in one else []
            self.check(not lacks, f"{name}, {one['name']} is closed and bounded, and is probed", lacks)

    def closed_etcd(self, policies, template):
        """Who reaches etcd, by what user."""
        spec = policies.get("confbridge-etcd", {}).get("spec", {})
        lets = [one.get("from") for one in spec.get("ingress", [])]
        good = field(spec, "podSelector.matchLabels") == template["metadata"]["labels"] and all(lets) and lets
        self.check(good and "Ingress" in spec["policyTypes"], "a NetworkPolicy says who reaches etcd", spec)
        first = [one["command"][0].rpartition("/")[2] for one in template["spec"]["initContainers"]]
        self.check(first == ["etcd_users.py"], "etcd has users before anybody reaches it", first)

    def closed_head(self, name):
        """What has to stay closed stands in a manifest's head."""
        lines = (EXAMPLES / "fleet" / name).read_text().splitlines()
        head = " ".join(itertools.takewhile(lambda line: line.startswith("#"), lines))
        unsaid = [port for port in CLOSED[name] if str(port) not in head]
        self.check(not unsaid, f"the head of {name} says which ports stay closed", unsaid)

    def ports_of_pods(self, texts, services, sets):
        serve, fleet, gateway = (tomllib.loads(filled(texts[f"{one}.toml"])) for one in ("serve", "fleet", "gateway"))
        (bridge,) = fleet["bridges"].values()
        pods = [one["spec"]["template"]["spec"] for one in sets.values()]
        containers = {one["name"]: one for pod in pods for one in pod["containers"]}
        drains = re.findall(r"drained\.py /secrets/fleet\.secret \$POD:(\d+) \$NAME ([0-9.:]+)", str(containers))
        page, etcd = containers["page"]["command"], port_of(fleet["etcd"]["servers"][0])
        listens = [one for one in containers["etcd"]["command"] if "listen-client" in one]
        asked = str([containers[name]["livenessProbe"] for name in ("kamailio", "rtpengine")])
        self.agree("pods agree", {
            "probes": (
                {port_of(gateway["phones"]["listen"]), port_of(gateway["rtpengine"]["control"])},
                {int(port) for port in re.findall(r":(\d+)\b", asked)},
            ),
            "secrets": (fleet["agent"]["secret"], gateway["fleet"]["secret"]),
            "udp": ({serve["udp"]}, {bridge["udp"], gateway["bridge"]["udp"]}),
            "tcp": ({serve["tcp"]}, {bridge["tcp"], gateway["bridge"]["tcp"], page[2], *(tcp for _, tcp in drains)}),
            "agent": ({port_of(fleet["agent"]["listen"])}, {
                port_of(fleet["agent"]["url"]), port_of(gateway["fleet"]["agent"]),
                services["confbridge"]["spec"]["ports"][0]["port"], *(int(port) for port, _ in drains),
            }),
            "etcd": ({etcd}, {services["confbridge-etcd"]["spec"]["ports"][0]["port"], port_of(listens[0])}),
            "etcd's host": (f"http://confbridge-etcd:{etcd}", fleet["etcd"]["servers"][0]),
            "sip": (gateway["phones"]["listen"], bridge["sip"]),
            "bridge's name": (serve["cname"], *fleet["bridges"]),
        })  # fmt: skip

    def step_ports_of_units(self):
        """The units' arguments, and those of the settings that README has installed."""
        units = {one.name: one.read_text() for one in EXAMPLES.rglob("*.service")}
        serve = tomllib.loads((EXAMPLES / "serve.toml").read_text())
        page = re.search(r"--bridge (\S+)", units["confbridge-page.service"])[1]
        self.agree("units agree with serve.toml", {"page": (serve["tcp"], page)})
        for name, text in units.items():
            lines = text.splitlines()
            lacks = [one for one in OF_UNIT if one not in lines and not (one in VALUED and f"\n{one}" in text)]
            self.check(not lacks, f"{name} is closed and bounded, and starts again for ever", lacks)
            serves = "confbridge serve" in text
            good = not serves or "KillMode=mixed" in lines and not any(one.startswith("ExecStop") for one in lines)
            self.check(good, f"{name} is told to end by SIGTERM")
        for folder in "gateway", "fleet":
            text = (EXAMPLES / folder / "README.md").read_text()
            units = [one.read_text() for one in (EXAMPLES / folder / "systemd").iterdir()]
            starts = {word for unit in units for word in re.findall(r"(?<=[= ])/\S+", unit)}
            homes = ["/etc/confbridge-gateway.toml", "/usr/local/lib/confbridge-gateway/"]
            homes += ["/etc/confbridge/", "/usr/local/lib/confbridge/"]
            named = [home for home in homes if any(start.startswith(home) for start in starts)]
            unsaid = [home for home in named if home.rstrip("/") not in text]
            self.check(not unsaid, f"README of {folder} installs what its units name", unsaid)
            programs = [one for one in starts if one.endswith(".py")]
            there = [(EXAMPLES / folder / one.rpartition("/")[2]).is_file() for one in programs]
            self.check(all(there), f"their programs are there: {', '.join(programs)}", programs)

    def step_compaction(self):
        """etcd forgets old changes wherever it is started."""
        texts = {name: (EXAMPLES / "fleet" / name).read_text() for name in ("kubernetes.yaml", "confbridge.nomad")}
        flags = {name: set(re.findall(r"--auto-compaction-(\w+)=(\w+)", text)) for name, text in texts.items()}
        unit = (EXAMPLES / "fleet/systemd/etcd.conf").read_text()
        found = re.findall(r"ETCD_AUTO_COMPACTION_(\w+)=(\w+)", unit)
        flags["etcd.conf"] = {(name.lower(), value) for name, value in found}
        wanted = {("mode", "periodic"), ("retention", "5m")}
        wrong = {name: one for name, one in flags.items() if one != wanted}
        self.check(not wrong, f"etcd forgets old changes: {', '.join(flags)}", wrong)
        says = "systemd/etcd.conf" in (EXAMPLES / "fleet/README.md").read_text()
        self.check(says, "README installs that for etcd's own unit")

    def step_ports_of_job(self):
        """The Nomad job: its static ports are those of the settings that it writes."""
        text = (EXAMPLES / "fleet/confbridge.nomad").read_text()
        port = {name: int(number) for name, number in re.findall(r'port "(\w+)" \{ static = (\d+) \}', text)}
        forms = {"udp": r"udp = .*:(\d+)", "desk": r"tcp = .*:(\d+)", "agent": r"(?:listen|url) = .*:(\d+)"}
        said = {name: {int(one) for one in re.findall(form, text)} for name, form in forms.items()}
        self.agree("the job's ports agree", {name: ({port[name]}, said[name]) for name in port})
        for task in re.split(r"\n    task ", text)[1:]:
            plain = re.sub(" +", " ", task)
            lacks = [one for one in OF_TASK if one not in plain] + re.findall("raw_exec|privileged", plain)
            self.check(not lacks, f"the job's task {task.split()[0]} is closed and bounded", lacks)
        self.closed_head("confbridge.nomad")
