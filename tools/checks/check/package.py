"""Builds a package, and holds a call with it on a Debian that has nothing but the C library and Python.

The package is built twice, and has the same octets. Programs that weren't proved are refused. lintian finds no error
and no warning, and man no fault of a page. The .deb is installed in a root of its own, which debootstrap makes once and
keeps in the user's cache (~/.cache/confbridge). Where it can't, the package is unpacked in a tree with the C library, a
shell and Python of this machine alone, and isn't removed.

There the bridge starts as its unit starts it, with the settings of the package, as a user without rights. Two members
talk through `confbridge-tools member`, `stats` counts them, and SIGTERM stops the bridge with its last lines. What
keeps the desk restores it to the next bridge. The gateway's agent serves its page. `confbridge-tools explain` explains
a capture. At last the package is removed, and nothing of it stays. Each has a line; so has what is skipped, and why.
"""

import argparse
import ctypes
import fcntl
import os
import pathlib
import re
import shutil
import signal
import socket
import stat
import struct
import subprocess
import tarfile
import tempfile
import time
import urllib.request

from checks.bridges import check, until
from checks.captures.writing import pcap
from checks.confined import directives, filters, lacks, libraries, limit
from checks.explain.planted import FAULTS, Call
from checks.make import package
from checks.package.proved import lack_of_proof
from operators.packets import is_rtp_of, rtp
from operators.serving import Operator, come_to, said_at_the_end
from operators.shared import CRATES, add_program

NEEDS = "the programs, git, dpkg-deb; root for a root of its own"

SUITE, MIRROR = "bookworm", "http://deb.debian.org/debian"
# How many seconds what is started may take. It takes one; a busy machine may take many.
PATIENCE = 120
NEW_MOUNTS, NEW_NETWORK, PRIVATE, DETACH = 0x00020000, 0x40000000, (1 << 18) | 16384, 2
SIOCSIFFLAGS, IFF_UP = 0x8914, 1
NO_NEW_PRIVILEGES, USER = 38, 10001
UDP, TCP, PAGE = ("127.0.0.1", 5004), ("127.0.0.1", 7000), "http://127.0.0.1:7080/"
# The page of the gateway.
JOIN = "http://127.0.0.1:8090/"
# Of each member its number, its source, its port, the ports of its programs, its stream, and its tone: 988 and -988 in
# mu-law (ITU-T G.711).
MEMBERS = [(10, 201, 6000, 6100, 6200, 9001, 0xCE), (11, 202, 6002, 6102, 6202, 9002, 0x4E)]


def options(parser):
    add_program(parser)
    parser.add_argument("--page", type=pathlib.Path, metavar="FILE", help="the page's program")
    parser.add_argument(
        "--gathered", action="store_true", help="unpack it in a tree of this machine's C library, shell and Python"
    )


def told(name, text):
    print(f"package, {name}: {text}", flush=True)


def skipped(name, why):
    print(f"skipped: package, {name}: {why}", flush=True)


# The files


def built(args, folder):
    """The tar and the .deb, which are built twice."""
    program = pathlib.Path(args.binary).resolve() if args.binary else CRATES / "confbridge/out/confbridge"
    check(program.is_file(), f"there is no program {program}")
    page = args.page or CRATES / "desk_page/out/desk_page"
    has_page = page.is_file()
    if not has_page:
        skipped("the page", f"there is no program {page}")
    lack = lack_of_proof(program) or has_page and lack_of_proof(page)
    made = []
    for name in "one", "other":
        given = {"to": folder / name, "unproved": bool(lack), "no_page": not has_page}
        given |= {"program": program if lack else None, "page": page if lack and has_page else None}
        made.append(package.build(argparse.Namespace(**given)))
    for one, other in zip(*made):
        check(one.read_bytes() == other.read_bytes(), f"two builds differ: {one.name}")
    told("built", f"twice, with the same octets: {made[0][1].name}" + (f" ({lack})" if lack else ""))
    return made[0], has_page


def check_refusal(folder):
    """A program that wasn't proved is refused, and one that was isn't."""
    program = folder / "program"
    program.write_bytes(b"a program")
    stamp, second = (folder / f"program.{end}" for end in ("stamp", "by-rattle"))
    check(lack_of_proof(program), "a program alone is taken for a proved one")
    stamp.write_text("0" * 128)
    check(lack_of_proof(program), "a program that was copied over a proved one is taken for that")
    stamp.write_text("0" * 64 + "d69ea8cda2433733c1ce02de65da8f48e6a3dbba6bb18876a2062908e54ef7cb")
    check(not lack_of_proof(program), "a program that `rt run` built isn't taken for a proved one")
    stamp.unlink()
    second.write_bytes(b"a program")
    os.utime(second, ns=(0, 0))
    check(lack_of_proof(program), "a program that is younger than its second one is taken for a proved one")
    os.utime(second)
    check(not lack_of_proof(program), "a program that `rt ci` built isn't taken for a proved one")
    os.utime(program, ns=(0, 0))
    check(lack_of_proof(program), "a program that is older than a source is taken for a proved one")
    told("proof", "a program that wasn't proved is refused")


def check_forms(deb, tree):
    """What Debian's own tools say of the package."""
    if shutil.which("lintian"):
        words = ["lintian", "--allow-root", "--fail-on", "error,warning", deb]
        run = subprocess.run(words, capture_output=True, text=True, check=False)
        check(run.returncode == 0, f"lintian finds errors or warnings:\n{run.stdout}{run.stderr}")
        told("lintian", "no error, and no warning")
    else:
        skipped("lintian", "it isn't installed")
    pages = sorted(tree.glob("usr/share/man/man1/*"))
    if not shutil.which("man"):
        skipped("man", "it isn't installed")
        return
    for page in pages:
        words = ["man", "--warnings", "-E", "UTF-8", "-l", "-Tutf8", page]
        run = subprocess.run(words, capture_output=True, text=True, env=os.environ | {"MANWIDTH": "80"}, check=False)
        check(run.returncode == 0 and not run.stderr, f"{page.name}: {run.stderr}")
    told("man", f"{len(pages)} pages without a warning")


def check_tar(tar, folder):
    """What the tar has runs from its own folder."""
    with tarfile.open(tar) as it:
        it.extractall(folder, filter="data")
    (top,) = folder.iterdir()
    example = CRATES / "confbridge"
    run = subprocess.run([top / "usr/bin/confbridge", "replay"], stdin=(example / "stdin").open(), capture_output=True)
    check(run.stdout == (example / "stdout").read_bytes(), f"from the tar's folder a replay says {run.stdout[:200]!r}")
    run = subprocess.run([top / "usr/bin/confbridge-tools", "--help"], capture_output=True, text=True)
    names = {line.split()[0] for line in run.stdout.splitlines() if line.startswith("  ")}
    check({"explain", "watch", "keep"} <= names and "check" not in names, f"its tools are {names}")
    told("tar", "runs from its own folder")


# The root


def kept_root():
    """The folder of a Debian with the C library and Python alone, which is made once, or None and why not."""
    cache = pathlib.Path(os.environ.get("XDG_CACHE_HOME", pathlib.Path.home() / ".cache")) / "confbridge" / SUITE
    if (cache / "usr/bin/python3").exists():
        return cache, None
    if not shutil.which("debootstrap"):
        return None, "there is no debootstrap"
    words = ["debootstrap", "--variant=minbase", "--include=python3", SUITE, cache, MIRROR]
    run = subprocess.run(words, capture_output=True, text=True, check=False)
    if run.returncode:
        shutil.rmtree(cache, ignore_errors=True)
        return None, f"debootstrap: {run.stdout.strip().splitlines()[-1:]}"
    return cache, None


def gathered(folder):
    """A tree with the C library, a shell and Python of this machine alone, or None where it has no Python of its
    own."""
    if not pathlib.Path("/usr/bin/python3").exists():
        return None
    for name in "usr/bin", "usr/lib", "usr/lib64", "tmp", "proc", "dev", "etc", "var/lib":
        (folder / name).mkdir(parents=True)
    for name in "bin", "lib", "lib64":
        (folder / name).symlink_to(f"usr/{name}")
    os.mknod(folder / "dev/null", 0o666 | stat.S_IFCHR, os.makedev(1, 3))
    (folder / "dev/null").chmod(0o666)
    (folder / "tmp").chmod(0o1777)
    version = "python{}.{}".format(*python_version())
    ignored = shutil.ignore_patterns("__pycache__", "test", "dist-packages", "config-*")
    shutil.copytree(f"/usr/lib/{version}", folder / f"usr/lib/{version}", ignore=ignored)
    programs = [pathlib.Path("/usr/bin") / name for name in ("sh", "dirname", "setpriv", "true", "python3")]
    for program in programs:
        shutil.copy(program, folder / f"usr/bin/{program.name}")
    modules = (folder / f"usr/lib/{version}/lib-dynload").glob("*.so")
    # Python opens the last one by itself, where a thread ends.
    for path in {*libraries_of([*programs, *modules]), *map(str, pathlib.Path("/").glob("lib/*/libgcc_s.so.1"))}:
        target = folder / path.removeprefix("/")
        target.parent.mkdir(parents=True, exist_ok=True)
        shutil.copy(path, target)
    return folder


def python_version():
    words = ["/usr/bin/python3", "-c", "import sys; print(*sys.version_info[:2])"]
    return subprocess.run(words, capture_output=True, text=True, check=True).stdout.split()


def libraries_of(files):
    """The libraries that files take, by their paths."""
    said = "".join(subprocess.run(["ldd", one], capture_output=True, text=True).stdout for one in files)
    return set(re.findall(r"(?:=> |^\s*)(/\S+)", said, re.M))


class Root:
    """A root of its own, with a network of its own."""

    def __init__(self, base, folder, is_proved):
        self.is_proved = is_proved
        libc = ctypes.CDLL(None, use_errno=True)
        mount = lambda source, at, kind, flags=0, data=b"": libc.mount(
            source, bytes(at), kind, ctypes.c_ulong(flags), data
        )
        check(libc.unshare(NEW_MOUNTS | NEW_NETWORK) == 0, "no mounts and no network of its own")
        mount(None, pathlib.Path("/"), None, PRIVATE)
        # Layers lie on a file system of their own: that of a container may not bear them.
        self.path, self.layers = folder / "root", folder / "layers"
        for one in self.path, self.layers:
            one.mkdir()
        mount(b"tmpfs", self.layers, b"tmpfs", 0, b"mode=755")
        for one in "upper", "work":
            (self.layers / one).mkdir()
        options = f"lowerdir={base},upperdir={self.layers}/upper,workdir={self.layers}/work".encode()
        if mount(b"overlay", self.path, b"overlay", 0, options):
            subprocess.run(["cp", "-a", f"{base}/.", self.path], check=True)
        mount(b"proc", self.path / "proc", b"proc")
        with socket.socket() as one:
            fcntl.ioctl(one, SIOCSIFFLAGS, struct.pack("16sh", b"lo", IFF_UP))
        self.libc, self.started = libc, []

    def unit(self, name):
        unit = directives(self.path / f"usr/lib/systemd/system/{name}.service")
        if not self.is_proved:
            # Its sanitizer reserves more than any machine has.
            unit.pop("LimitAS", None)
        return unit

    def run(self, *words):
        """Runs a command there, as root. What it says."""
        how = {"capture_output": True, "text": True, "check": False, "preexec_fn": self.enter}
        run = subprocess.run(words, env={"PATH": "/usr/sbin:/usr/bin:/sbin:/bin", "LC_ALL": "C"}, **how)
        check(run.returncode == 0, f"{' '.join(words)} ends with status {run.returncode}:\n{run.stdout}{run.stderr}")
        return run.stdout

    def enter(self):
        os.chroot(self.path)
        os.chdir("/")

    def start(self, words, unit=None):
        """Starts a command there as a unit does: another user, its limits, its filters of system calls."""
        loaded = filters(unit) if unit and not lacks() else ()
        if loaded:
            libraries()

        def begin():
            self.enter()
            os.setgroups([])
            os.setresgid(USER, USER, USER)
            os.setresuid(USER, USER, USER)
            if unit:
                limit(unit)
            self.libc.prctl(NO_NEW_PRIVILEGES, 1, 0, 0, 0)
            for one in reversed(loaded):
                one.load()

        env = {"PATH": "/usr/local/sbin:/usr/local/bin:/usr/sbin:/usr/bin:/sbin:/bin"}
        with open(self.path / "said", "w+b") as said:
            how = {"stdin": subprocess.DEVNULL, "stdout": said, "stderr": said, "env": env, "preexec_fn": begin}
            one = subprocess.Popen(words, **how)
            one.said = os.fdopen(os.dup(said.fileno()), "r+b")
        (self.path / "said").unlink()
        self.started.append(one)
        return one

    def start_unit(self, name):
        unit = self.unit(name)
        for folder in unit.get("StateDirectory", []):
            place = self.path / "var/lib" / folder
            place.mkdir(exist_ok=True)
            os.chown(place, USER, USER)
        return self.start(unit["ExecStart"][0].split(" "), unit)

    def end(self):
        """Ends what was started, and lets go of all mounts."""
        for one in self.started:
            if one.poll() is None:
                one.kill()
                one.wait()
        for mounted in self.path / "proc", self.path, self.layers:
            self.libc.umount2(bytes(mounted), DETACH)
        check(not os.listdir(self.path / "proc") if (self.path / "proc").exists() else True, "a mount stays")


def said_by(one):
    """What a program has said."""
    return os.pread(one.said.fileno(), 1 << 20, 0).decode()


def listening(bridge):
    """An operator's connection, once a bridge listens."""
    listens = lambda: "listening" in said_by(bridge) or bridge.poll() is not None
    until(listens, "the bridge doesn't say that it listens", PATIENCE)
    check(bridge.poll() is None, f"the bridge ends with status {bridge.returncode}: {said_by(bridge)}")
    return Operator(socket.create_connection(TCP, PATIENCE))


# The call


class Program:
    """A member's programs, behind `confbridge-tools member`: one sends a tone, one receives."""

    def __init__(self, member):
        self.number, self.ssrc, self.port, self.speaks, hears, self.out, self.tone = member
        self.socket, self.heard = socket.socket(socket.AF_INET, socket.SOCK_DGRAM), []
        self.socket.bind(("127.0.0.1", hears))
        self.socket.setblocking(False)

    def turn(self, tick):
        octets = rtp(tick, tick * 160, self.ssrc, bytes([self.tone]) * 160, pt=0)
        self.socket.sendto(octets, ("127.0.0.1", self.speaks))
        self.heard += come_to(self.socket)

    def hears(self, tone):
        """Whether it heard this tone, and no other one."""
        return len(self.heard) > 50 and {octets[-1] for octets in self.heard} == {tone} and all(
            is_rtp_of(octets, self.out) for octets in self.heard
        )


def hold(root, desk):
    """A call of two members."""
    root_members = [
        root.start(["/usr/bin/confbridge-tools", "member", *map(str, member[2:5])]) for member in MEMBERS
    ]
    for line in [
        "add-room 1",
        *(f"add-member {number} 1 127.0.0.1:{port} pcmu {out} 0 0" for number, _, port, _, _, out, _ in MEMBERS),
        *(f"add-source {ssrc} {number} audio" for number, ssrc, *_ in MEMBERS),
    ]:
        said = desk.ask(line)
        check(said.startswith("ok "), f"`{line}` is answered `{said}`")
    programs, begun, tick = [Program(member) for member in MEMBERS], time.monotonic(), 0
    while not all(one.hears(other.tone) for one, other in zip(programs, programs[::-1])):
        check(time.monotonic() < begun + PATIENCE, f"of a call came {[len(one.heard) for one in programs]} mixes")
        for one in programs:
            one.turn(tick)
        tick += 1
        time.sleep(max(0, begun + tick * 0.02 - time.monotonic()))
    told("call", f"two members heard one another through `confbridge-tools member`, for {tick / 50:.0f} s")
    for one in root_members:
        one.terminate()
        one.wait(PATIENCE)
    return tick


def check_stats(desk, tick):
    lines = desk.shown("stats")
    sources = {line.split()[2] for line in lines if line.startswith("source ")}
    check(sources == {"201", "202"}, f"`stats` has the sources {sources}")
    streams = [line for line in lines if line.startswith("stream ")]
    check(len(streams) == 2, f"`stats` has the streams {streams}")
    told("stats", f"has both sources and both streams, of {tick} packets each")


def stopped(bridge, name):
    """Stops a bridge as systemd does."""
    bridge.send_signal(signal.SIGTERM)
    status = bridge.wait(PATIENCE)
    check(status == 0, f"at SIGTERM {name} ends with status {status}: {said_by(bridge)}")


def check_bridge(root):
    """A bridge with a call, its end, and the next one, which gets the desk."""
    bridge = root.start_unit("confbridge")
    desk = listening(bridge)
    told("start", said_by(bridge).splitlines()[0].removeprefix("confbridge: ").split(", ticks")[0])
    keeper = root.start_unit("confbridge-desk")
    until(lambda: "nothing to restore" in said_by(keeper), "what keeps the desk doesn't begin", PATIENCE)
    check_stats(desk, hold(root, desk))
    rows = desk.shown()[:-1]
    # systemd ends what keeps the desk before the bridge.
    stopped(keeper, "what keeps the desk")
    stopped(bridge, "the bridge")
    last = said_by(bridge)
    calls, _ = said_at_the_end(last)
    check(sum(calls.values()) == 5, f"at its end the bridge says {last!r}")
    told("stop", f"SIGTERM ends it with `{last.splitlines()[-1]}`, and its calls")
    bridge, keeper = root.start_unit("confbridge"), root.start_unit("confbridge-desk")
    desk = listening(bridge)
    until(lambda: "were accepted" in said_by(keeper), f"the desk isn't restored: {said_by(keeper)}", PATIENCE)
    kinds = lambda rows: [row.split(" ")[:4] for row in rows]
    check(kinds(desk.shown()[:-1]) == kinds(rows), "the restored desk is another one")
    told("desk", f"the next bridge has its {len(rows)} rows again")
    check_page(root)
    check_gateway(root)
    for one, name in (keeper, "what keeps the desk"), (bridge, "the bridge"):
        stopped(one, name)


def check_page(root):
    if not (root.path / "usr/bin/confbridge-page").is_symlink():
        return
    page = root.start_unit("confbridge-page")
    until(lambda: "http://" in said_by(page), f"the page doesn't listen: {said_by(page)}", PATIENCE)
    with urllib.request.urlopen(PAGE, timeout=PATIENCE) as answer:
        check(b"<title>" in answer.read(), "the page isn't there")
    page.terminate()
    page.wait()
    told("page", f"is at {PAGE}")


def check_gateway(root):
    """The gateway's agent, beside a bridge: it serves its page. This Debian has neither rtpengine nor Kamailio."""
    agent = root.start_unit("confbridge-agent")
    until(lambda: "the page is" in said_by(agent), f"the agent doesn't begin: {said_by(agent)}", PATIENCE)
    with urllib.request.urlopen(JOIN, timeout=PATIENCE) as answer:
        check(b"<title>" in answer.read(), "the gateway's page isn't there")
    agent.terminate()
    check(agent.wait(PATIENCE) == 0, f"the agent ends with status {agent.returncode}: {said_by(agent)}")
    told("gateway", f"its agent serves {JOIN}")


def check_tools(root):
    """A tool there explains a capture."""
    capture = root.path / "tmp/call.pcap"
    fault, _, words = FAULTS["PCMA"]
    capture.write_bytes(pcap(Call(fault).packets, units=10**9))
    said = root.run("/usr/bin/confbridge-tools", "explain", "/tmp/call.pcap")
    check(words in " ".join(said.split()), f"a capture is explained by\n{said}")
    told("explain", "names the fault of a capture")
    capture.unlink()


def check_demo(root):
    """The demo there has a call of two members, at the page."""
    if not (root.path / "usr/bin/confbridge-page").is_symlink():
        skipped("demo", "there is no page")
        return
    demo = root.start(["/usr/bin/confbridge-tools", "demo"])
    begins = lambda: PAGE in said_by(demo) or demo.poll() is not None
    until(begins, f"the demo doesn't begin: {said_by(demo)}", PATIENCE)
    check(demo.poll() is None, f"the demo ends with status {demo.returncode}: {said_by(demo)}")
    desk = Operator(socket.create_connection(TCP, PATIENCE))
    heard = lambda: sum(line.startswith("stream ") for line in desk.shown("stats")) >= 2
    until(heard, "nobody is heard in the demo", PATIENCE)
    demo.send_signal(signal.SIGINT)
    check(demo.wait(PATIENCE) == 0, f"the demo ends with status {demo.returncode}: {said_by(demo)}")
    told("demo", "`confbridge-tools demo` holds a call, and Ctrl-C ends it")


def check_root(deb, is_gathered):
    """Installs the package in a root of its own, uses it there, and removes it."""
    if os.geteuid():
        skipped("install", "a root of its own takes root")
        return
    base, why = (None, "asked for by --gathered") if is_gathered else kept_root()
    with tempfile.TemporaryDirectory() as name:
        folder = pathlib.Path(name)
        folder.chmod(0o755)
        is_debian, base = bool(base), base or gathered(folder / "base")
        if not base:
            skipped("install", f"{why}, and this machine has no Python in /usr/bin")
            return
        is_proved = ".unproved" not in deb.name
        if not is_proved:
            skipped("memory", "a program that wasn't proved has a sanitizer, which no limit of memory lets start")
        root = Root(base, folder, is_proved)
        try:
            if is_debian:
                use_installed(root, deb)
            else:
                skipped("dpkg", f"{why}. The package is unpacked instead")
                use_unpacked(root, deb)
        finally:
            root.end()


def use_unpacked(root, deb):
    """Unpacks the package, and uses it."""
    subprocess.run(["dpkg-deb", "-x", deb, root.path], check=True)
    told("install", "unpacked in a tree with the C library, a shell and Python alone")
    check_bridge(root)
    check_tools(root)
    check_demo(root)


def use_installed(root, deb):
    """Installs the package, uses it, and removes it."""
    shutil.copyfile(deb, root.path / "tmp/confbridge.deb")
    root.run("dpkg", "--install", "/tmp/confbridge.deb")
    told("install", f"on a Debian {SUITE} with the C library and Python alone")
    files = [name for name in root.run("dpkg", "--listfiles", "confbridge").splitlines() if "confbridge" in name]
    if lacks():
        skipped("filters", f"there is no {lacks()}, so the units' filters of system calls aren't tried")
    check_bridge(root)
    check_tools(root)
    check_demo(root)
    root.run("dpkg", "--purge", "confbridge")
    left = [name for name in files if os.path.lexists(f"{root.path}{name}")]
    left += map(str, (root.path / "var/lib").glob("confbridge*"))
    check(not left, f"behind its removal stay {left}")
    told("remove", f"nothing stays of {len(files)} files and folders")


def run(args):
    with tempfile.TemporaryDirectory() as name:
        folder = pathlib.Path(name)
        for part in "made", "proof", "tree", "tar":
            (folder / part).mkdir()
        check_refusal(folder / "proof")
        (tar, deb), _ = built(args, folder / "made")
        check_tar(tar, folder / "tar")
        if not deb:
            skipped("deb", "there is no dpkg-deb")
            return 0
        subprocess.run(["dpkg-deb", "-x", deb, folder / "tree"], check=True)
        check_forms(deb, folder / "tree")
        check_root(deb, args.gathered)
    return 0
