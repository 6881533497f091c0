#!/usr/bin/env python3
"""Tests clients/, tools/ and deploy/ on this machine, over the loopback alone.

    python3 tests/deploy.py             plays all parts
    python3 tests/deploy.py PART..      plays these parts; --help names them

Installs from Debian's packages what the parts need in addition to the programs in bin/, where the caller may do that.
Leaves out each part that lacks a program, and says so. Prints each check that fails, then 'N passed, M failed'. The status
is 1 where a check fails, or where none was played."""

import argparse
import importlib
import os
import shutil
import subprocess
import sys

from support.playing import played

# The parts, in order. Each has its module, and the programs that it needs in addition to Python and a C compiler.
PARTS = {
    "python_types": ("deploy_parts.python_types", ["mypy"]),
    "rust_crate": ("deploy_parts.rust_crate", ["cargo"]),
    "python_client": ("parts.python_client", []),
    "scan_files": ("parts.scan_files", []),
    "c_header": ("parts.c_header", []),
    "dissector": ("deploy_parts.dissector", ["tshark"]),
    "systemd_units": ("deploy_parts.systemd_units", ["systemd-socket-activate", "systemd-analyze", "strace"]),
    "haproxy_balancer": ("deploy_parts.haproxy_balancer", ["haproxy", "systemd-socket-activate"]),
    "parallel_hosts": ("deploy_parts.parallel_hosts", ["parallel"]),
    "dask_calls": ("deploy_parts.dask_calls", []),
    "dask_cluster": ("deploy_parts.dask_cluster", ["dask-scheduler", "dask-worker"]),
    "nginx_filter": ("deploy_parts.nginx_filter", ["nginx"]),
    "rsyslog_tags": ("deploy_parts.rsyslog_tags", ["rsyslogd"]),
}
# Debian's packages of programs with another name, or that are more than a program.
PACKAGES = {
    "nginx": "nginx libnginx-mod-http-lua",
    "rsyslogd": "rsyslog",
    "systemd-socket-activate": "systemd",
    "systemd-analyze": "systemd",
    "dask-scheduler": "python3-distributed",
    "dask-worker": "python3-distributed",
}


def install(names):
    """Installs missing programs, where that can be done. Answers the parts that can be played, and prints the others."""
    needed = {program for name in names for program in PARTS[name][1]}
    packages = {PACKAGES.get(program, program) for program in needed if not shutil.which(program)}
    missing = sorted(name for names in packages for name in names.split())
    if missing and os.geteuid() == 0 and shutil.which("apt-get"):
        print(f"installing {' '.join(missing)}", flush=True)
        quiet = {"stdout": subprocess.DEVNULL, "env": dict(os.environ, DEBIAN_FRONTEND="noninteractive")}
        apt = ["apt-get", "-q", "-y", "-o", "DPkg::Lock::Timeout=300"]
        subprocess.run([*apt, "update"], check=False, **quiet)
        subprocess.run([*apt, "install", "--no-install-recommends", *missing], check=False, **quiet)
    found = []
    for name in names:
        lacking = [program for program in PARTS[name][1] if not shutil.which(program)]
        if lacking:
            print(f"left out: {name}, for want of {', '.join(lacking)}")
        else:
            found.append(name)
    return found


def run(names):
    """Plays these parts, and counts what passed and failed."""
    passed = failed = 0
    for name in names:
        right, wrong = played(name, importlib.import_module(PARTS[name][0]).TESTS)
        passed, failed = passed + right, failed + wrong
        print(f"{name}: {right + wrong} checks", flush=True)
    print(f"{passed} passed, {failed} failed")
    return 0 if passed and not failed else 1


def main():
    parser = argparse.ArgumentParser(description="Tests clients/, tools/ and deploy/ on this machine.")
    parser.add_argument("parts", nargs="*", metavar="PART", help=", ".join(PARTS))
    names = parser.parse_args().parts or list(PARTS)
    unknown = set(names) - set(PARTS)
    if unknown:
        parser.error(f"no such part: {', '.join(sorted(unknown))}")
    return run(install(names))


if __name__ == "__main__":
    sys.exit(main())
