"""Builds a package of the proved bridge and its page: a tar and a .deb, for a Debian without the toolchain.

    tools/bridge make package --to /tmp

Both have the programs, what starts and stops them, units of systemd, settings with comments, the tools that operators
use, manual pages, documents and the licence. The tar has the same files as the .deb, to be unpacked at `/`; from its
own folder `usr/bin/confbridge` and `usr/bin/confbridge-tools` run, too. A program that wasn't proved is refused: `rt
ci` and `rt run` leave something beside those that were. Two packages of one commit and the same programs have the same
octets. The version has the moment and the sum of the commit, `.changed` where the clone has other changes, and
`.unproved` where --unproved was given.
"""

import hashlib
import importlib
import io
import os
import pathlib
import shutil
import subprocess
import tarfile
import tempfile

from checks.package import contents, debian
from checks.package.commit import commit_of
from checks.package.proved import lack_of_proof
from operators.shared import CRATES, fail

NEEDS = "the programs, git, dpkg-deb for the .deb"


def options(parser):
    parser.add_argument(
        "--to", type=pathlib.Path, default=pathlib.Path("."), metavar="FOLDER", help="where they are put (%(default)s)"
    )
    parser.add_argument(
        "--unproved", action="store_true", help="take programs that weren't proved, and say so in the description"
    )
    parser.add_argument("--no-page", action="store_true", help="leave the page out")
    parser.add_argument("--program", type=pathlib.Path, metavar="FILE", help="the bridge, with --unproved")
    parser.add_argument("--page", type=pathlib.Path, metavar="FILE", help="the page's program, with --unproved")


def program_of(crate, given, is_unproved):
    """The path of a crate's program. Ends where there is none, or where it wasn't proved."""
    program = given or CRATES / crate / "out" / crate
    if given and not is_unproved:
        fail(f"{given} may have been proved or not: name a program with --unproved alone")
    if not program.is_file():
        fail(f"there is no program {program}: `rt ci` proves and builds it")
    lack = None if is_unproved else lack_of_proof(program)
    if lack:
        fail(f"{program} wasn't proved: {lack}. Run `rt ci`, or take it as it is by --unproved")
    return program


def modules():
    """The tools of a package with their modules, which `tools/bridge` knows."""
    return [(name, importlib.import_module(f"operators.{name}")) for name in contents.TOOLS]


def written(folder, files, moment):
    """Writes files to a folder, each with the moment of the commit."""
    folder.mkdir(mode=0o755)
    for name, one in files.items():
        place = folder / name
        place.parent.mkdir(parents=True, exist_ok=True, mode=0o755)
        if one.link:
            place.symlink_to(one.link)
        else:
            place.write_bytes(one.octets)
            place.chmod(0o755 if one.is_run else 0o644)
    for place in sorted(folder.rglob("*"), reverse=True):
        if place.is_dir():
            place.chmod(0o755)
        os.utime(place, (moment, moment), follow_symlinks=False)
    folder.chmod(0o755)


def tar(path, name, files, moment):
    """Writes a tar whose files stand in a folder of this name."""
    parents = {str(parent) for place in files for parent in pathlib.PurePath(place).parents} - {"."}
    entries = [(name, None), *((f"{name}/{parent}", None) for parent in parents)]
    entries += [(f"{name}/{place}", one) for place, one in files.items()]
    with tarfile.open(path, "w:xz", format=tarfile.GNU_FORMAT) as it:
        for place, one in sorted(entries, key=lambda entry: entry[0]):
            info = tarfile.TarInfo(place)
            info.mtime, info.uname, info.gname = moment, "root", "root"
            info.mode = 0o755 if not one or one.is_run else 0o644
            if not one:
                info.type = tarfile.DIRTYPE
            elif one.link:
                info.type, info.linkname, info.mode = tarfile.SYMTYPE, one.link, 0o777
            else:
                info.size = len(one.octets)
            it.addfile(info, io.BytesIO(one.octets) if one else None)


def sums(files):
    """The MD5 sums that a .deb has of its files (deb-md5sums(5))."""
    kept = {name: one for name, one in files.items() if not one.link and not name.startswith("etc/")}
    lines = [f"{hashlib.md5(one.octets, usedforsecurity=False).hexdigest()}  {name}\n" for name, one in kept.items()]
    return "".join(sorted(lines, key=lambda line: line.split("  ")[1]))


def deb(path, files, commit, programs, is_proved):
    """Writes a .deb, by dpkg-deb."""
    octets = sum(len(one.octets) for one in files.values())
    with tempfile.TemporaryDirectory() as folder:
        root = pathlib.Path(folder) / "root"
        own = {
            f"DEBIAN/{name}": contents.text(text, is_run)
            for name, (text, is_run) in debian.members(commit, programs, octets, is_proved).items()
        }
        own["DEBIAN/md5sums"] = contents.text(sums(files))
        written(root, files | own, commit.moment)
        how = os.environ | {"SOURCE_DATE_EPOCH": str(commit.moment)}
        words = ["dpkg-deb", "--root-owner-group", "-Zxz", "--build", root, path]
        run = subprocess.run(words, env=how, capture_output=True, text=True, check=False)
    if run.returncode:
        fail(f"dpkg-deb: {run.stderr.strip()}")


def build(args):
    """Builds both. Their paths, of which the second one may be None."""
    program = program_of("confbridge", args.program, args.unproved)
    page = None if args.no_page else program_of("desk_page", args.page, args.unproved)
    commit, programs = commit_of(program, not args.unproved), [program, *([page] if page else [])]
    files = contents.files_of(program, page, commit, modules())
    args.to.mkdir(parents=True, exist_ok=True)
    name = f"confbridge-{commit.version.removesuffix('-1')}"
    paths = args.to / f"{name}.tar.xz", args.to / f"confbridge_{commit.version}_amd64.deb"
    tar(paths[0], name, files, commit.moment)
    if not shutil.which("dpkg-deb"):
        return paths[0], None
    deb(paths[1], files, commit, programs, not args.unproved)
    return paths


def run(args):
    paths = build(args)
    for path in paths:
        print(path or "there is no command `dpkg-deb`, so no .deb was built")
    return 0
