#!/usr/bin/env python3
"""Makes a Debian package of glass, and a tar archive with the same.

    python3 tools/make_package.py                                   of the programs of dist/, below packages/
    python3 tools/make_package.py --portable FILE --wide FILE       of these programs: for every x86-64, and for AVX2
    python3 tools/make_package.py --into FOLDER --version 1.0

Both have what `make install` puts below a prefix: the program, the tools as glass-NAME, manual pages, the completion of
bash, the examples and the pages. `glass` is a script there that starts the one of the two programs that is for the
processor. The archive may be unpacked anywhere. The same commit and the same programs make the same bytes.

The version is the day and the name of the commit where none is named. It needs make, git and, for the Debian package,
dpkg-deb; without dpkg-deb the archive alone is made, with a line that says so.

Status: 0 where both are made, 2 for a wrong word or what can't be packed, with a line."""
import argparse
import gzip
import os
import re
import shutil
import subprocess
import sys
import tarfile
import tempfile
from pathlib import Path
from typing import List, Tuple

import dist
from exit_status import status_of
from make_tables import OneLineParser, Refusal

MAINTAINER = "Yolgifsa maintainers <maintainers@users.noreply.yolgifsa.example>"
CONTROL = """Package: glass
Version: {version}
Architecture: amd64
Maintainer: {maintainer}
Installed-Size: {size}
Depends: libc6 (>= {glibc}), python3 (>= 3.8)
Recommends: python3-numpy, python3-scipy, python3-matplotlib
Suggests: bash-completion
Section: science
Priority: optional
Description: simulate the three-dimensional Edwards-Anderson spin glass
 A simulator of disorder samples of the binary Edwards-Anderson model on
 periodic cubes, 64 samples at once, by Metropolis or heat bath with
 parallel tempering. Its printed results are proved to be those of a serial
 simulation of one spin at a time.
 .
 Tools in Python make tables of temperatures, drive runs of months in parts,
 and take means with errors, figures and correlation lengths from reports.
"""
CHANGELOG = """glass ({version}) unstable; urgency=medium

  * Commit {commit} of the repository.

 -- {maintainer}  {date}
"""
PAGE = """.TH {title} 1 "{day}" glass "User commands"
.SH NAME
{name} \\- {about}
.SH DESCRIPTION
.nf
{text}
.fi
.SH SEE ALSO
.BR glass (1)
"""


def run(words: List[str], **how) -> str:
    """What a command prints; refuses where it fails."""
    try:
        ran = subprocess.run(words, cwd=dist.TOP, stdout=subprocess.PIPE, stderr=subprocess.PIPE, universal_newlines=True,
                             check=False, **how)
    except OSError as fault:
        raise Refusal(f"{words[0]} can't be run: {fault.strerror}") from None
    if ran.returncode:
        raise Refusal(f"{' '.join(words[:2])} failed: {' '.join((ran.stderr or ran.stdout).split())[-300:]}")
    return ran.stdout.strip()


class Commit:
    """What of the commit stands in a package: its name, its time, and a version of both."""

    def __init__(self) -> None:
        self.name = run(["git", "describe", "--always", "--exclude", "*", "--dirty=+changed"])
        self.seconds = int(run(["git", "log", "-1", "--format=%ct"]))
        self.day, self.date = (run(["date", "-u", "-d", f"@{self.seconds}", form]) for form in ("+%Y-%m-%d", "-R"))
        self.version = f"0~git{self.day.replace('-', '')}.{self.name}"


# ---------------------------------------------------------------- the stage


def escaped(text: str) -> str:
    """A text as a manual page has it."""
    lines = text.replace("\\", "\\e").replace("-", "\\-").splitlines()
    return "\n".join("\\&" + line if line[:1] in (".", "'") else line for line in lines)


def installed(text: str, names: List[str]) -> str:
    """A tool's own text, with the tools as they are called once they are installed."""
    for name in names:
        module = name.partition("-")[2].replace("-", "_")
        text = re.sub(rf"(?:python3 )?tools/{module}\.py", name, text)
        text = re.sub(rf"^usage: {module}\b", f"usage: {name}", text)
    return text


def write_pages(stage: Path, day: str) -> None:
    """A manual page for each tool, of what it says itself; all pages packed."""
    manual = stage / "usr/share/man/man1"
    tools = sorted((stage / "usr/bin").glob("glass-*"))
    for tool in tools:
        text = installed(run([str(tool), "--help"], env={**os.environ, "COLUMNS": "80"}), [tool.name for tool in tools])
        about = next(part for part in text.split("\n\n") if not part.startswith("usage:"))
        sentence = " ".join(about.split()).partition(". ")[0].rstrip(".").replace("`", "")
        page = PAGE.format(title=tool.name.upper(), day=day, name=escaped(tool.name),
                           about=escaped(sentence[0].lower() + sentence[1:]), text=escaped(text))
        (manual / f"{tool.name}.1").write_text(page, encoding="utf-8")
    for page in manual.glob("*.1"):
        packed(page.read_bytes(), page.with_name(page.name + ".gz"))
        page.unlink()


def packed(data: bytes, path: Path) -> None:
    """Writes bytes as gzip does without a name and a time."""
    path.parent.mkdir(parents=True, exist_ok=True)
    with open(path, "wb") as raw, gzip.GzipFile(filename="", mode="wb", fileobj=raw, mtime=0) as out:
        out.write(data)


def fill(stage: Path, programs: Tuple[Path, Path], commit: Commit, version: str) -> None:
    """Puts all that is packed below a folder."""
    run(["make", "-s", "install", f"DESTDIR={stage}", "PREFIX=/usr", "PROGRAM=packaging/glass"])
    for program, processor in zip(programs, dist.PROCESSORS):
        target = stage / "usr/lib/glass" / f"glass-{processor}"
        target.parent.mkdir(parents=True, exist_ok=True)
        shutil.copyfile(program, target)
        target.chmod(0o755)
    for path in (stage / "usr/share/glass").rglob("*.py"):
        path.chmod(0o755 if path.read_bytes().startswith(b"#!") else 0o644)
    write_pages(stage, commit.day)
    document = stage / "usr/share/doc/glass"
    shutil.copyfile(dist.TOP / "packaging/copyright", document / "copyright")
    text = CHANGELOG.format(version=version, commit=commit.name, maintainer=MAINTAINER, date=commit.date)
    packed(text.encode(), document / "changelog.gz")
    overrides = stage / "usr/share/lintian/overrides/glass"
    overrides.parent.mkdir(parents=True)
    shutil.copyfile(dist.TOP / "packaging/lintian-overrides", overrides)


# ---------------------------------------------------------------- the packages


def files_below(folder: Path) -> List[Path]:
    """All files below a folder, in the order of their paths."""
    return sorted(path for path in folder.rglob("*") if path.is_symlink() or path.is_file())


def write_debian(stage: Path, into: Path, version: str, glibc: str) -> Path:
    """The Debian package of a stage."""
    files = files_below(stage)
    control = stage / "DEBIAN"
    control.mkdir()
    # As dpkg-gencontrol counts: whole kibibytes of each file, and one for each folder and link.
    size = sum(1 if path.is_symlink() else -(-path.stat().st_size // 1024) for path in files)
    size += sum(1 for path in stage.rglob("*") if path.is_dir() and not path.is_symlink())
    text = CONTROL.format(version=version, maintainer=MAINTAINER, size=size, glibc=glibc)
    (control / "control").write_text(text, encoding="utf-8")
    sums = (f"{run(['md5sum', str(path)]).split()[0]}  {path.relative_to(stage)}\n" for path in files if not path.is_symlink())
    (control / "md5sums").write_text("".join(sums), encoding="utf-8")
    made = into / f"glass_{version}_amd64.deb"
    run(["dpkg-deb", "--build", "--root-owner-group", str(stage), str(made)])
    shutil.rmtree(control)
    return made


def write_archive(stage: Path, into: Path, version: str, seconds: int) -> Path:
    """The tar archive of a stage, whose prefix is one folder."""
    name = f"glass-{version}"
    made = into / f"{name}-linux-x86-64.tar.gz"

    def plain(entry: tarfile.TarInfo) -> tarfile.TarInfo:
        entry.uid = entry.gid = 0
        entry.uname = entry.gname = "root"
        entry.mtime = seconds
        return entry

    with open(made, "wb") as raw, gzip.GzipFile(filename="", mode="wb", fileobj=raw, mtime=0) as out:
        with tarfile.open(fileobj=out, mode="w") as archive:
            for path in files_below(stage / "usr"):
                at = path.relative_to(stage / "usr")
                if at.parts[:2] != ("share", "lintian"):
                    archive.add(path, f"{name}/{at}", filter=plain)
    return made


def chosen(options: argparse.Namespace) -> Tuple[Path, Path]:
    """The two programs: those that are named, else those of dist/ where they are of the tree's sources."""
    if (options.portable is None) != (options.wide is None):
        raise Refusal("--portable and --wide go together")
    if options.portable is not None:
        programs = Path(options.portable).resolve(), Path(options.wide).resolve()
        for program in programs:
            if not program.is_file():
                raise Refusal(f"there is no program {program}")
        return programs
    try:
        manifest = dist.read_manifest()
        dist.claims_tree(manifest)
        return dist.whole_file(manifest, dist.PORTABLE), dist.whole_file(manifest, dist.WIDE)
    except dist.NotTaken as why:
        raise Refusal(f"{why}: make dist, or name the programs") from None


def main(words: List[str]) -> int:
    parser = OneLineParser(prog="make_package", description=__doc__, formatter_class=argparse.RawDescriptionHelpFormatter)
    parser.add_argument("--portable", metavar="FILE", help="the program for every x86-64 processor")
    parser.add_argument("--wide", metavar="FILE", help="the program for x86-64-v3")
    parser.add_argument("--into", metavar="FOLDER", default=dist.TOP / "packages", type=Path, help="where they are made")
    parser.add_argument("--version", help="the version of both")
    options = parser.parse_args(words)
    programs = chosen(options)
    commit = Commit()
    version = options.version or commit.version
    # What is packed has one mode and one time, wherever it is made.
    os.umask(0o022)
    os.environ["SOURCE_DATE_EPOCH"] = str(commit.seconds)
    into = options.into.resolve()
    into.mkdir(parents=True, exist_ok=True)
    with tempfile.TemporaryDirectory() as folder:
        stage = Path(folder) / "stage"
        stage.mkdir()
        fill(stage, programs, commit, version)
        if shutil.which("dpkg-deb"):
            glibc = max((dist.oldest_glibc(program.read_bytes()) for program in programs), key=dist.numbers)
            print(write_debian(stage, into, version, glibc))
        else:
            print("make_package: dpkg-deb is missing, so no Debian package is made", file=sys.stderr)
        print(write_archive(stage, into, version, commit.seconds))
    return 0


if __name__ == "__main__":
    sys.exit(status_of("make_package", lambda: main(sys.argv[1:])))
