#!/usr/bin/env python3
"""The objects of kubernetes.yaml for one machine without a cluster, as podman plays them: pods, and no stateful sets.

    pods.py ADDRESS | podman kube play -

ADDRESS is the machine's own, and stands where services have names. Each StatefulSet is its first pod, on the machine's
network. What Kubernetes tells a pod is written out, and a claim of a volume is a folder that goes with the pod. The
secrets are drawn here, each time anew. podman has no NetworkPolicy: with 127.0.0.1 nobody else reaches etcd.
"""

import base64
import json
import pathlib
import secrets
import sys

import yaml

MANIFESTS = pathlib.Path(__file__).with_name("kubernetes.yaml")


def pod_of(one, address):
    """The first pod of a StatefulSet."""
    name, template = f"{one['metadata']['name']}-0", one["spec"]["template"]
    spec = template["spec"] | {"hostNetwork": True}
    claims = [each["metadata"]["name"] for each in one["spec"].get("volumeClaimTemplates", [])]
    spec["volumes"] = [*spec.get("volumes", []), *({"name": claim, "emptyDir": {}} for claim in claims)]
    for of_cluster in "nodeSelector", "tolerations", "affinity":
        spec.pop(of_cluster, None)
    told = {"status.hostIP": address, "status.podIP": address, "metadata.name": name}
    for container in [*spec.get("initContainers", []), *spec["containers"]]:
        for variable in container.get("env", []):
            if "valueFrom" in variable:
                variable["value"] = told[variable.pop("valueFrom")["fieldRef"]["fieldPath"]]
    return {"apiVersion": "v1", "kind": "Pod", "metadata": template["metadata"] | {"name": name}, "spec": spec}


def secret():
    """The secrets that kubernetes.yaml has made by hand."""
    draw = lambda: base64.b64encode(secrets.token_hex(32).encode()).decode()
    drawn = {key: draw() for key in ("fleet.secret", "etcd.password")}
    return {"apiVersion": "v1", "kind": "Secret", "metadata": {"name": "confbridge"}, "data": drawn}


def main():
    if len(sys.argv) != 2:
        sys.exit(__doc__)
    # podman gives pods on the machine's network no names of others.
    text = MANIFESTS.read_text()
    for name in "confbridge-etcd", "0.0.0.0":
        text = text.replace(f"//{name}:", f"//{sys.argv[1]}:")
    objects = list(yaml.safe_load_all(text))
    sets = [pod_of(one, sys.argv[1]) for one in objects if one["kind"] == "StatefulSet"]
    maps = [one for one in objects if one["kind"] == "ConfigMap"]
    # Without what is the same twice, which podman wouldn't read.
    print(yaml.safe_dump_all(json.loads(json.dumps([secret(), *maps, *sets])), sort_keys=False))


if __name__ == "__main__":
    main()
