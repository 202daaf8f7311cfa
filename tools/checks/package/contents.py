"""The files of a package: their places, their octets, and whether they are run."""

import dataclasses
import gzip
import re

from checks.package import manual
from checks.package.commit import changelog
from operators.shared import ROOT

# The tools that operators use, where some of what they import stands, and what they read beside their folder.
TOOLS = ["calls", "demo", "explain", "keep", "keeper", "member", "restore", "watch"]
FLEET, READ = ROOT / "examples/fleet", ROOT / "examples/serve.toml"
GATEWAY = ROOT / "examples/gateway"
UNITS = ["confbridge", "confbridge-calls", "confbridge-desk", "confbridge-page"]
SHARE, DOC, MAN = "usr/share/confbridge", "usr/share/doc/confbridge", "usr/share/man/man1"
IN_CLONE = re.compile(r"^# --- in a clone alone\n.*?^# --- anywhere\n", re.M | re.S)
COMMAND = manual.COMMAND
# Where the gateway's files stand, and its settings from there. Its command is run by a link.
GATEWAY_SHARE, GATEWAY_SETTINGS = f"{SHARE}/examples/gateway", "etc/confbridge-gateway.toml"


@dataclasses.dataclass(frozen=True)
class File:
    """A file, or what a link leads to."""

    octets: bytes = b""
    is_run: bool = False
    link: str = None


def text(octets, is_run=False):
    return File(octets.encode(), is_run)


def packed(octets):
    """A text that is packed, the same each time."""
    return File(gzip.compress(octets.encode(), 9, mtime=0))


# Tools


def sources():
    """The sources of the tools that operators use, which import nothing else of tools/."""
    return [ROOT / "tools/bridge", *sorted((ROOT / "tools/operators").rglob("*.py"))]


def beside():
    """What these sources import of examples/fleet, also by way of one another, and what they read."""
    found, due = {READ}, sources()
    while due:
        for name in re.findall(r"^(?:from|import) (\w+)", due.pop().read_text(), re.M):
            path = FLEET / f"{name}.py"
            if path.is_file() and path not in found:
                found.add(path)
                due.append(path)
    return sorted(found)


def as_packaged(source):
    """A source whose tools are called as the package's are."""
    return source.replace("tools/bridge", COMMAND).replace("#!/usr/bin/env python3", "#!/usr/bin/python3")


def tools():
    for path in sources():
        place = path.relative_to(ROOT)
        yield f"{SHARE}/{place}", text(as_packaged(path.read_text()), place.name == "bridge")
    for path in beside():
        yield f"{SHARE}/{path.relative_to(ROOT)}", File(path.read_bytes())
    yield f"usr/bin/{COMMAND}", File(link="../share/confbridge/tools/bridge")


# The bridge, its page, and what starts them


def starter():
    """./confbridge without what it does in a clone alone."""
    whole = IN_CLONE.sub("", (ROOT / "confbridge").read_text())
    return whole.replace("./confbridge", "confbridge").replace("# Elsewhere, as in /usr/local/bin, it", "# It")


def unit(name):
    """A unit of examples/ with the package's places."""
    whole = (ROOT / f"examples/{name}.service").read_text()
    return whole.replace("/usr/local/", "/usr/").replace("/usr/bin/desk_page", "/usr/bin/confbridge-page")


def programs(program, page):
    yield "usr/bin/confbridge", text(starter(), True)
    yield "usr/lib/confbridge/confbridge", File(program.read_bytes(), True)
    yield "etc/confbridge.toml", File((ROOT / "examples/confbridge.toml").read_bytes())
    if page:
        yield "usr/lib/confbridge/desk_page", File(page.read_bytes(), True)
        yield "usr/bin/confbridge-page", File(link="../lib/confbridge/desk_page")
    for name in UNITS if page else UNITS[:-1]:
        yield f"usr/lib/systemd/system/{name}.service", text(unit(name))


# The gateway


def gateway_file(path):
    """A file of the gateway with the package's places and commands."""
    whole = path.read_text().replace("/usr/local/lib/confbridge-gateway/", f"/{GATEWAY_SHARE}/")
    return text(whole.replace("#!/usr/bin/env python3", "#!/usr/bin/python3 -B"), bool(path.stat().st_mode & 0o100))


def gateway():
    """The gateway's programs, pages, settings and units."""
    kept = [path for path in GATEWAY.iterdir() if path.suffix in (".py", ".js", ".html", ".cfg", ".md")]
    for path in sorted([*kept, GATEWAY / "bridge.toml"]):
        yield f"{GATEWAY_SHARE}/{path.name}", gateway_file(path)
    yield GATEWAY_SETTINGS, gateway_file(GATEWAY / "gateway.toml")
    yield "usr/bin/confbridge-gateway", File(link="../share/confbridge/examples/gateway/gateway.py")
    yield f"{DOC}/examples/gateway", File(link="../../../confbridge/examples/gateway")
    for path in sorted((GATEWAY / "systemd").iterdir()):
        yield f"usr/lib/systemd/system/{path.name}", gateway_file(path)


# Documents


def licence():
    """LICENSE in Debian's form."""
    lines = (ROOT / "LICENSE").read_text().strip().split("\n")
    owner = next(line.removeprefix("Copyright (c) ") for line in lines if line.startswith("Copyright"))
    body = "\n".join(f" {line}" if line else " ." for line in lines[lines.index(f"Copyright (c) {owner}") + 2 :])
    form = "https://www.debian.org/doc/packaging-manuals/copyright-format/1.0/"
    return f"Format: {form}\nUpstream-Name: confbridge\n\nFiles: *\nCopyright: {owner}\nLicense: Expat\n{body}\n"


OVERRIDES_PAGE = "confbridge: unstripped-binary-or-object [usr/lib/confbridge/desk_page]\n"
OVERRIDES = """# Each program is, octet by octet, the one that was proved, built and run: nothing is stripped of it.
confbridge: unstripped-binary-or-object [usr/lib/confbridge/confbridge]
confbridge: unstripped-binary-or-object [usr/lib/confbridge/desk_page]
# It isn't made for Debian's archive, where a first upload closes a report.
confbridge: initial-upload-closes-no-bugs [*]
# What keeps the desk and what follows the calls start with the bridge, and end with it.
confbridge: systemd-service-file-refers-to-unusual-wantedby-target confbridge.service [*]
# A unit that is removed is stopped, and no longer enabled.
confbridge: maintainer-script-calls-systemctl [prerm:*]
"""


def documents(commit, modules, has_page):
    overrides = OVERRIDES if has_page else OVERRIDES.replace(OVERRIDES_PAGE, "")
    yield "usr/share/lintian/overrides/confbridge", text(overrides)
    yield f"{DOC}/copyright", text(licence())
    yield f"{DOC}/changelog.Debian.gz", packed(changelog(commit))
    yield f"{DOC}/README.md", File((ROOT / "README.md").read_bytes())
    for path in sorted(path for path in (ROOT / "docs").rglob("*") if path.is_file()):
        yield f"{DOC}/{path.relative_to(ROOT)}", File(path.read_bytes())
    for path in sorted((ROOT / "examples").glob("*.txt")):
        yield f"{DOC}/examples/{path.name}", File(path.read_bytes())
    for name in ["confbridge", "confbridge-gateway", *(["confbridge-page"] if has_page else [])]:
        yield f"{MAN}/{name}.1.gz", packed(manual.of_file(name, commit))
    yield f"{MAN}/{COMMAND}.1.gz", packed(manual.of_tools(modules, commit))
    for name, module in modules:
        yield f"{MAN}/{COMMAND}-{name}.1.gz", packed(manual.of_tool(name, module, commit))


def files_of(program, page, commit, modules):
    """All files of a package by their places, from programs, a commit, and the modules of its tools."""
    parts = programs(program, page), tools(), gateway(), documents(commit, modules, bool(page))
    return {name: one for part in parts for name, one in part}
