#!/usr/bin/env python3
"""Packs built programs for machines without the kit: an archive, Debian packages, BUILDINFO and SHA256SUMS.

    tools/dist.py --programs-v2 DIR --programs-v3 DIR [--library DIR] [--gate FILE] [--into DIR]

`make dist` calls it. The packages have the programs for x86-64-v2, the archive those for x86-64-v3 too. The same commit
and programs give the same bytes. Prints the newest version of glibc's symbols that the programs and the library need, and
stops if Debian oldstable is older."""

import argparse
import collections
import gzip
import hashlib
import os
import re
import shutil
import subprocess
import sys
import tarfile
import tempfile
import time

import install

TOP = install.TOP
# glibc of Debian oldstable, which is Debian 12 ("bookworm", in whose Release file the suite is oldstable since the
# release of Debian 13): its package libc6 is 2.36-9+deb12u14.
OLDSTABLE_GLIBC = 2, 36
# The libraries that a package may need: all are in Debian's libc6.
OF_LIBC = {"libc.so.6", "libm.so.6", "libpthread.so.0", "libdl.so.2", "ld-linux-x86-64.so.2"}
ARCHIVE_PREFIX, FAST = "usr/local", "libexec/x86-64-v3"
DEBIAN_FOLDERS = {
    "prefix": "/usr",
    "libdir": "/usr/lib/x86_64-linux-gnu",
    "zshdir": "/usr/share/zsh/vendor-completions",
    "unitdir": "/usr/lib/systemd/system",
    "pythondir": "/usr/lib/python3/dist-packages",
    "docdir": "/usr/share/doc/litgrep",
}
# Before its package goes, the server is disabled and stopped. Where systemd does not run there are only links to remove.
STOP_SERVICES = """if [ "$1" = remove ] && command -v systemctl > /dev/null; then
    systemctl --quiet disable scand.socket scand-port@.service || true
    [ ! -d /run/systemd/system ] || systemctl stop scand.socket 'scand@*.service' 'scand-port@*.service' || true
fi
"""

Package = collections.namedtuple("Package", "name section files depends summary text")
# The packages, each with the files that go into it: the first pattern that fits decides. One without files is not made.
PACKAGES = (
    Package(
        "libfiolargu-dev", "libdevel", r"/usr/include/|/usr/lib/x86_64-linux-gnu/.*(\.so|\.a|\.pc)$", "libfiolargu0 (= {version})",
        "search for many literals at once: for C programs", "The header and the libraries to build C programs with.",
    ),
    Package(
        "libfiolargu0", "libs", r"/usr/lib/x86_64-linux-gnu/", "libc6 (>= {glibc})",
        "search for many literals at once: library", "The library that programs load.",
    ),
    Package(
        "python3-fiolargu", "python", r"/usr/lib/python3/|/usr/share/fiolargu/(clients/python|deploy/rsyslog)/", "python3, libfiolargu0 (>= {version})",
        "search for many literals at once: for Python", "The module for Python 3.",
    ),
    Package(
        "litgrep", "utils", r"/", "libc6 (>= {glibc})",
        "search for many literals at once, with code proved to miss no match",
        "litgrep is POSIX grep -F with all its options. litplan plans lists of literals and checks the certificates of their"
        " plans. scand scans byte streams for many clients. A prover checked the code of all three against its contracts.",
    ),
)


class Release:
    """What all files of a release have in common: version, commit and date."""

    def __init__(self, gate):
        with open(os.path.join(TOP, "crates", "program_words", "src", "reading.rt"), encoding="utf-8") as file:
            self.version = re.search(r'VERSION: &str = "(.*)"', file.read())[1]
        self.commit, self.epoch, self.author = git("log", "-1", "--format=%H%n%ct%n%an <%ae>").splitlines()
        self.epoch = int(os.environ.get("SOURCE_DATE_EPOCH", self.epoch))
        self.is_changed = bool(git("status", "--porcelain"))
        self.gate = ""
        if gate and os.path.isfile(gate):
            with open(gate, encoding="utf-8") as file:
                self.gate = file.read().rstrip().rpartition("\n")[2]
        self.name = f"fiolargu-{self.version}-x86_64-linux"
        self.glibc = ""

    def date(self, form):
        """The date of the commit, in UTC."""
        return time.strftime(form, time.gmtime(self.epoch))

    def buildinfo(self):
        """The text of BUILDINFO."""
        changed = " with uncommitted changes" if self.is_changed else ""
        lines = [f"fiolargu {self.version}", f"commit {self.commit}{changed}", f"date {self.date('%Y-%m-%dT%H:%M:%SZ')}"]
        lines += [f"glibc {self.glibc}"] + ([f"gate {self.gate}"] if self.gate else [])
        return "\n".join(lines) + "\n"


def git(*words):
    """What git says of the repository."""
    return subprocess.run(["git", "-C", TOP, *words], check=True, capture_output=True, text=True).stdout.strip()


def needs_of(path):
    """The libraries that a program or a library loads, and the versions of glibc's symbols that it uses."""
    shown = subprocess.run(["readelf", "--wide", "-d", "-V", path], check=True, capture_output=True, text=True).stdout
    versions = re.findall(r"Name: GLIBC_([\d.]+)", shown)
    return set(re.findall(r"NEEDED.*\[(.*)\]", shown)), {tuple(map(int, version.split("."))) for version in versions}


def newest_glibc(paths):
    """The oldest glibc that has all symbols which these files use. Stops if the one of Debian oldstable is older."""
    newest = 2, 2
    for path in paths:
        libraries, versions = needs_of(path)
        if not libraries <= OF_LIBC:
            sys.exit(f"dist: {path} needs {', '.join(sorted(libraries - OF_LIBC))}, which the packages do not ask for")
        newest = max(newest, *(version[:2] for version in versions)) if versions else newest
    needed, oldstable = (".".join(map(str, version)) for version in (newest, OLDSTABLE_GLIBC))
    print(f"dist: the files need GLIBC_{needed}; Debian oldstable has {oldstable}", flush=True)
    if newest > OLDSTABLE_GLIBC:
        sys.exit("dist: that is too new: build the programs on Debian oldstable")
    return needed


def write(text, *path):
    """Writes a text file."""
    os.makedirs(os.path.dirname(os.path.join(*path)), exist_ok=True)
    with open(os.path.join(*path), "w", encoding="utf-8") as file:
        file.write(text)


def settle(folder, epoch):
    """Gives all below a folder the rights and the time that it has in every build."""
    for parent, _, names in os.walk(folder):
        for path in [parent, *(os.path.join(parent, name) for name in names)]:
            if not os.path.islink(path):
                is_executable = os.path.isdir(path) or os.stat(path).st_mode & 0o100
                os.chmod(path, 0o755 if is_executable else 0o644)
            os.utime(path, (epoch, epoch), follow_symlinks=False)


def linked(built):
    """The programs of both levels, and the shared objects of the library where it was built."""
    found = [os.path.join(built[level], program) for level in ("v2", "v3") for program in install.PROGRAMS]
    objects = [os.path.join(built["library"], name) for name, _ in install.LIBRARY if name.endswith(".so.0")]
    return found + [name for name in objects if os.path.isfile(name)]


def installed(built, *words):
    """Installs the files of the packages, with the programs for every processor."""
    install.main([*words, "--programs", built["v2"], "--library", built["library"], "--strip"])


def archive(release, built, folder, into):
    """Makes the archive. Its files are laid out for /usr/local; install.sh puts them there or elsewhere."""
    staged = os.path.join(folder, "archive")
    installed(built, "--prefix", f"/{ARCHIVE_PREFIX}", "--destdir", staged)
    top = os.path.join(staged, ARCHIVE_PREFIX)
    fast = install.parsed(["--programs", built["v3"], "--strip"])
    for program in install.PROGRAMS:
        install.put(os.path.join(fast.programs, program), os.path.join(top, FAST, program), fast)
    shutil.copy(os.path.join(TOP, "tools", "install.sh"), top)
    write(release.buildinfo(), top, "BUILDINFO")
    for name in "README.md", "CHANGELOG.md":
        os.symlink(f"share/doc/fiolargu/{name}", os.path.join(top, name))
    settle(top, release.epoch)
    target = os.path.join(into, f"{release.name}.tar.gz")
    with open(target, "wb") as file, gzip.GzipFile("", "wb", fileobj=file, mtime=0) as packed:
        with tarfile.open(fileobj=packed, mode="w", format=tarfile.USTAR_FORMAT) as tar:
            for parent, folders, names in os.walk(top):
                folders.sort()
                for path in [parent, *(os.path.join(parent, name) for name in sorted(names))]:
                    name = os.path.normpath(os.path.join(release.name, os.path.relpath(path, top)))
                    tar.add(path, name, recursive=False, filter=unowned)
    return target


def unowned(member):
    """A member of an archive that belongs to nobody in particular."""
    member.uid = member.gid = 0
    member.uname = member.gname = ""
    return member


def compress(path):
    """Compresses a file as Debian has manuals and changelogs, and the same in every build."""
    with open(path, "rb") as file, open(f"{path}.gz", "wb") as target, gzip.GzipFile("", "wb", 9, target, 0) as packed:
        shutil.copyfileobj(file, packed)
    os.remove(path)


def staged_for_debian(built, folder):
    """Installs all files where Debian has them, and answers the folder and the paths of the files."""
    staged = os.path.join(folder, "debian")
    folders = [word for name, folder in DEBIAN_FOLDERS.items() for word in (f"--{name}", folder)]
    installed(built, *folders, "--destdir", staged)
    for parent, _, names in os.walk(os.path.join(staged, "usr", "share", "man")):
        for name in names:
            compress(os.path.join(parent, name))
    found = [os.path.join(parent, name) for parent, _, names in os.walk(staged) for name in names]
    return staged, sorted(path[len(staged) :] for path in found)


def control(release, package, folder):
    """The control file of a package."""
    sizes = [os.lstat(os.path.join(parent, name)).st_size for parent, _, names in os.walk(folder) for name in names]
    depends = package.depends.format(version=release.version, glibc=release.glibc)
    fields = {
        "Package": package.name,
        "Version": release.version,
        "Architecture": "amd64",
        "Maintainer": release.author,
        "Installed-Size": sum(-(-size // 1024) for size in sizes),
        "Depends": depends,
        "Section": package.section,
        "Priority": "optional",
        "Description": "\n ".join([package.summary, *wrapped(package.text)]),
    }
    return "".join(f"{name}: {value}\n" for name, value in fields.items())


def wrapped(text):
    """The lines of a text."""
    return re.findall(r"\S.{0,76}(?=\s|$)", text)


def changelog(release, package):
    """The changelog of a package, which points to the one of the release."""
    entry = f"{package.name} ({release.version}) unstable; urgency=medium\n\n  * CHANGELOG.md of litgrep has the changes.\n"
    return f"{entry}\n -- {release.author}  {release.date('%a, %d %b %Y %H:%M:%S +0000')}\n"


def packaged(release, package, folder, into):
    """Makes a package of a folder."""
    doc = os.path.join(folder, "usr", "share", "doc", package.name)
    write(release.buildinfo(), doc, "BUILDINFO")
    write(changelog(release, package), doc, "changelog")
    compress(os.path.join(doc, "changelog"))
    text, sums = control(release, package, folder), []
    for parent, folders, names in os.walk(folder):
        folders.sort()
        sums += [os.path.join(parent, name) for name in sorted(names) if not os.path.islink(os.path.join(parent, name))]
    write("".join(f"{digest(path, 'md5')}  {os.path.relpath(path, folder)}\n" for path in sums), folder, "DEBIAN", "md5sums")
    write(text, folder, "DEBIAN", "control")
    # Python keeps what it compiles beside the modules. A purge is to leave nothing.
    modules = sorted({os.path.dirname(path[len(folder) :]) for path in sums if path.endswith(".py")})
    before = "".join(f"rm -rf {module}/__pycache__\n" for module in modules)
    if os.path.isdir(folder + DEBIAN_FOLDERS["unitdir"]):
        before += STOP_SERVICES
    if before:
        write(f"#!/bin/sh\nset -e\n{before}", folder, "DEBIAN", "prerm")
        os.chmod(os.path.join(folder, "DEBIAN", "prerm"), 0o755)
    if package.section == "libs":
        write("activate-noawait ldconfig\n", folder, "DEBIAN", "triggers")
        write(f"libfiolargu 0 libfiolargu0 (>= {release.version})\n", folder, "DEBIAN", "shlibs")
    settle(folder, release.epoch)
    target = os.path.join(into, f"{package.name}_{release.version}_amd64.deb")
    words = ["dpkg-deb", "--root-owner-group", "--threads-max=1", "-Zxz", "--build", folder, target]
    env = {**os.environ, "SOURCE_DATE_EPOCH": str(release.epoch)}
    subprocess.run(words, check=True, stdout=subprocess.DEVNULL, env=env)
    return target


def packages(release, built, folder, into):
    """Makes each package that has files."""
    staged, paths = staged_for_debian(built, folder)
    files = collections.defaultdict(list)
    for path in paths:
        files[next(package for package in PACKAGES if re.match(package.files, path))].append(path)
    for package in sorted(files):
        own = os.path.join(folder, package.name)
        for path in files[package]:
            os.makedirs(os.path.dirname(own + path), exist_ok=True)
            os.rename(staged + path, own + path)
        yield packaged(release, package, own, into)


def digest(path, kind="sha256"):
    """The checksum of a file."""
    with open(path, "rb") as file:
        return hashlib.new(kind, file.read()).hexdigest()


def main():
    parser = argparse.ArgumentParser(description=__doc__.splitlines()[0])
    parser.add_argument("--programs-v2", required=True, metavar="DIR", help="the programs for x86-64-v2")
    parser.add_argument("--programs-v3", required=True, metavar="DIR", help="the programs for x86-64-v3")
    parser.add_argument("--library", default=TOP, metavar="DIR", help="where lib/ and include/ are (the top of the repository)")
    gate = os.path.join(TOP, "dist", "gate.txt")
    parser.add_argument("--gate", default=gate, metavar="FILE", help="the gate's output, if there is one (dist/gate.txt)")
    parser.add_argument("--into", default=os.path.join(TOP, "dist"), metavar="DIR", help="the folder of the release (dist/)")
    options = parser.parse_args()
    built = {"v2": options.programs_v2, "v3": options.programs_v3, "library": options.library}
    built = {name: os.path.abspath(folder) for name, folder in built.items()}
    os.umask(0o022)
    release = Release(options.gate)
    release.glibc = newest_glibc(linked(built))
    os.makedirs(options.into, exist_ok=True)
    with tempfile.TemporaryDirectory() as folder:
        made = [archive(release, built, folder, options.into)]
        if shutil.which("dpkg-deb"):
            made += packages(release, built, folder, options.into)
        else:
            print("dist: left out: the Debian packages, for want of dpkg-deb")
    write(release.buildinfo(), options.into, "BUILDINFO")
    made.append(os.path.join(options.into, "BUILDINFO"))
    write("".join(f"{digest(path)}  {os.path.basename(path)}\n" for path in made), options.into, "SHA256SUMS")
    for path in made:
        print(f"dist: {os.path.relpath(path)}")
    return 0


if __name__ == "__main__":
    sys.exit(main())
