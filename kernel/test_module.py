#!/usr/bin/env -S python3 -B
"""Compiles the module of module/ against the headers of Debian's kernels, 6.1 and 6.12, with every warning as an error, and those of sparse too if that
is installed. Where these headers can't be had, one line says so, and that is no failure."""

import sys

import machine


WARNINGS = ["KCFLAGS=-Werror", "W=1"]
SPARSE = ["C=2", "CF=-Wsparse-error"]


def main():
    status = 0
    sparse = machine.find("sparse")
    for release in machine.RELEASES:
        try:
            headers = machine.fetch_headers(machine.newest_image(release))
        except (machine.Failed, OSError) as cause:
            print(f"kernel/module isn't compiled for {release}, as its headers can't be had: {str(cause).splitlines()[0]}")
            continue
        try:
            machine.build_module(headers, *WARNINGS, *(SPARSE if sparse else []))
            print(f"kernel/module compiles for {release}{', and sparse has nothing to say' if sparse else ''}")
        except machine.Failed as cause:
            print(f"kernel/module doesn't compile for {release}: {cause}")
            status = 1
    return status


if __name__ == "__main__":
    sys.exit(main())
