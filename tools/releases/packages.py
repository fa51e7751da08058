"""The archive, the Debian packages and the wheel of a release."""

import base64
import gzip
import hashlib
import io
import lzma
import os
import re
import shutil
import tarfile
import time
import zipfile

from files import files_below, put, read, said

MAINTAINER = "mntgate <mntgate@example.invalid>"
TRIPLET = "x86_64-linux-gnu"
# What the code needs and Debian's amd64 doesn't promise: SSE4.2 and POPCNT.
PROCESSOR = "sse4.2-support"
COPYRIGHT = """Format: https://www.debian.org/doc/packaging-manuals/copyright-format/1.0/
Upstream-Name: mntgate

Files: *
Copyright: the authors of mntgate
License: none-chosen
 No licence has been chosen yet. Until one is, no permission to use, copy or
 change this code is given.
"""


def libc_floor(path):
    """Returns the newest version of glibc that a program or library asks for."""
    return max(
        (int(major), int(minor))
        for major, minor in re.findall(r"GLIBC_(\d+)\.(\d+)", said("objdump", "-T", path))
    )


def make_tar(path, folder, top, epoch):
    """Writes a folder as an archive: sorted, with one time and no owner's name. xz runs in one
    thread, since the blocks of more depend on their number."""

    def plain(info):
        info.uid = info.gid = 0
        info.uname = info.gname = ""
        info.mtime = epoch
        info.mode = 0o755 if info.isdir() or info.mode & 0o100 else 0o644
        return info

    packed = io.BytesIO()
    with tarfile.open(fileobj=packed, mode="w", format=tarfile.GNU_FORMAT) as tar:
        entries = [
            os.path.join(at, name)
            for at, folders, names in os.walk(folder)
            for name in folders + names
        ]
        for entry in sorted([folder] + entries):
            tar.add(
                entry,
                os.path.normpath(os.path.join(top, os.path.relpath(entry, folder))),
                recursive=False,
                filter=plain,
            )
    put(path, lzma.compress(packed.getvalue(), preset=9 | lzma.PRESET_EXTREME))


def control_of(name, section, depends, short, long, more=""):
    """Returns the control file of a package, without its version and size."""
    lines = "".join(f" {line}\n" for line in long)
    return (
        f"Package: {name}\nSource: mntgate\nArchitecture: amd64\n{more}Maintainer:"
        f" {MAINTAINER}\nSection: {section}\nPriority: optional\nDepends: {depends}\nDescription:"
        f" {short}\n{lines}"
    )


def put_control(folder, control, version, epoch):
    """Writes what a package says of itself: control, sums, copyright and changes."""
    name = re.search(r"^Package: (.*)", control, re.M)[1]
    doc = f"{folder}/usr/share/doc/{name}"
    put(f"{doc}/copyright", COPYRIGHT)
    date = time.strftime("%a, %d %b %Y %H:%M:%S +0000", time.gmtime(epoch))
    log = (
        f"mntgate ({version}) unstable; urgency=medium\n\n  * CHANGELOG.md of this version has the"
        f" changes.\n\n -- {MAINTAINER}  {date}\n"
    )
    put(f"{doc}/changelog.gz", gzip.compress(log.encode(), 9, mtime=0))
    paths = files_below(folder)
    size = sum(-(-os.lstat(f"{folder}/{path}").st_size // 1024) for path in paths)
    sums = "".join(
        f"{hashlib.md5(read(f'{folder}/{path}')).hexdigest()}  {path}\n"
        for path in paths
        if not os.path.islink(f"{folder}/{path}")
    )
    put(
        f"{folder}/DEBIAN/control",
        control.replace(
            "Description:", f"Version: {version}\nInstalled-Size: {size}\nDescription:"
        ),
    )
    put(f"{folder}/DEBIAN/md5sums", sums)


def make_package(out, folder, control, version, epoch, more=()):
    """Packs a folder as a Debian package. All its files get the time of the commit."""
    put_control(folder, control, version, epoch)
    for name, data in more:
        put(f"{folder}/DEBIAN/{name}", data)
    for at, folders, names in os.walk(folder):
        os.chmod(at, 0o755)
        for entry in folders + names:
            os.utime(os.path.join(at, entry), (epoch, epoch), follow_symlinks=False)
    os.utime(folder, (epoch, epoch))
    name = re.search(r"^Package: (.*)", control, re.M)[1]
    said(
        "dpkg-deb",
        "--root-owner-group",
        "-Zxz",
        "-z9",
        "--threads-max=1",
        "--build",
        folder,
        f"{out}/{name}_{version}_amd64.deb",
        env={**os.environ, "SOURCE_DATE_EPOCH": str(epoch)},
    )


def put_manual(folder, pages, section):
    """Packs the pages of a section of the manual. A page that only leads to another becomes a
    link."""
    for name in sorted(os.listdir(f"{pages}/man{section}")):
        data = read(f"{pages}/man{section}/{name}")
        place = f"{folder}/usr/share/man/man{section}/{name}.gz"
        if data.startswith(b".so "):
            os.makedirs(os.path.dirname(place), exist_ok=True)
            os.symlink(os.path.basename(data.decode().split()[1]) + ".gz", place)
        else:
            put(place, gzip.compress(data, 9, mtime=0))


def package_program(out, work, version, epoch):
    """The program, its manual, its completions, the pages and the examples."""
    folder, top = f"{work}/mntgate.deb", f"{work}/top"
    put(f"{folder}/usr/bin/mntgate", read(f"{top}/bin/mntgate"), 0o755)
    put_manual(folder, f"{top}/share/man", 1)
    put(
        f"{folder}/usr/share/bash-completion/completions/mntgate",
        read(f"{top}/share/bash-completion/completions/mntgate"),
    )
    put(
        f"{folder}/usr/share/zsh/vendor-completions/_mntgate",
        read(f"{top}/share/zsh/site-functions/_mntgate"),
    )
    for name in ("html", "examples"):
        shutil.copytree(f"{top}/{name}", f"{folder}/usr/share/doc/mntgate/{name}")
    put(f"{folder}/usr/share/doc/mntgate/PROOF.txt", read(f"{top}/PROOF.txt"))
    depends = "libc6 (>= %d.%d), %s" % (*libc_floor(f"{top}/bin/mntgate"), PROCESSOR)
    long = [
        "Replays interleavings of the write gates of the Linux VFS, and lists all",
        "outcomes of a race between calls.",
    ]
    make_package(
        out,
        folder,
        control_of(
            "mntgate",
            "utils",
            depends,
            "write gates of a mounted file system, from the command line",
            long,
        ),
        version,
        epoch,
    )


def package_library(out, work, version, library, epoch):
    """The shared library, which programs need that were built with the header."""
    soname = re.search(r"SONAME +(\S+)", said("objdump", "-p", library))[1]
    number = soname.rsplit(".", 1)[1]
    name, folder = f"libmntgate{number}", f"{work}/library.deb"
    put(f"{folder}/usr/lib/{TRIPLET}/{os.path.basename(library)}", read(library))
    os.symlink(os.path.basename(library), f"{folder}/usr/lib/{TRIPLET}/{soname}")
    depends = "libc6 (>= %d.%d), %s" % (*libc_floor(library), PROCESSOR)
    long = ["The write gates of a mounted file system, proved, for programs in C."]
    control = control_of(
        name,
        "libs",
        depends,
        "write gates of a mounted file system, shared library",
        long,
        "Multi-Arch: same\n",
    )
    more = [
        ("shlibs", f"libmntgate {number} {name} (>= {version})\n"),
        ("triggers", "activate-noawait ldconfig\n"),
    ]
    make_package(out, folder, control, version, epoch, more)
    return name, soname


def package_header(out, work, version, runtime, soname, epoch):
    """What a program is built with: header, static library, pkg-config file and section 3 of the
    manual."""
    folder, top = f"{work}/header.deb", f"{work}/top"
    libraries = f"{folder}/usr/lib/{TRIPLET}"
    put(f"{folder}/usr/include/mntgate.h", read(f"{top}/include/mntgate.h"))
    put(f"{libraries}/libmntgate.a", read(f"{top}/lib/libmntgate.a"))
    os.symlink(soname, f"{libraries}/libmntgate.so")
    pc = re.sub(
        r"^prefix=.*", "prefix=/usr", read(f"{top}/lib/pkgconfig/mntgate.pc").decode(), flags=re.M
    )
    put(
        f"{libraries}/pkgconfig/mntgate.pc",
        pc.replace("libdir=${prefix}/lib\n", f"libdir=${{prefix}}/lib/{TRIPLET}\n"),
    )
    put_manual(folder, f"{top}/share/man", 3)
    shutil.copytree(f"{top}/bindings/c/examples", f"{folder}/usr/share/doc/libmntgate-dev/examples")
    long = ["Header, static library, manual pages and pkg-config file of the write gates."]
    control = control_of(
        "libmntgate-dev",
        "libdevel",
        f"{runtime} (= {version}), libc6-dev",
        "write gates of a mounted file system, for development",
        long,
        "Multi-Arch: same\n",
    )
    make_package(out, folder, control, version, epoch)


def make_packages(out, work, version, library, epoch):
    """Makes the three Debian packages of what stands in work/top."""
    package_program(out, work, version, epoch)
    runtime, soname = package_library(out, work, version, library, epoch)
    package_header(out, work, version, runtime, soname, epoch)


def make_wheel(out, version, library, epoch):
    """Makes the wheel: the module, and beside it the library, which it takes first. Its tag is that
    of the oldest glibc that the library runs with."""
    tag = "py3-none-manylinux_%d_%d_x86_64" % max(libc_floor(library), (2, 17))
    soname = re.search(r"SONAME +(\S+)", said("objdump", "-p", library))[1]
    info = f"mntgate-{version}.dist-info"
    summary = "Summary: The proved write gates of a mounted file system"
    files = {
        "mntgate.py": read(f"{os.path.dirname(library)}/../../top/bindings/python/mntgate.py"),
        f"mntgate.libs/{soname}": read(library),
        f"{info}/METADATA": (
            f"Metadata-Version: 2.1\nName: mntgate\nVersion: {version}\n{summary}\nRequires-Python:"
            " >=3.8\n".encode()
        ),
        f"{info}/WHEEL": (
            "Wheel-Version: 1.0\nGenerator: bin/release\nRoot-Is-Purelib: false\n"
            f"Tag: {tag}\n".encode()
        ),
    }

    def digest(data):
        return base64.urlsafe_b64encode(hashlib.sha256(data).digest()).rstrip(b"=").decode()

    record = (
        "".join(f"{name},sha256={digest(data)},{len(data)}\n" for name, data in files.items())
        + f"{info}/RECORD,,\n"
    )
    files[f"{info}/RECORD"] = record.encode()
    stamp = max(time.gmtime(epoch)[:6], (1980, 1, 1, 0, 0, 0))
    with zipfile.ZipFile(f"{out}/mntgate-{version}-{tag}.whl", "w") as wheel:
        for name, data in files.items():
            entry = zipfile.ZipInfo(name, stamp)
            entry.external_attr = (0o100755 if ".so" in name else 0o100644) << 16
            wheel.writestr(entry, data, zipfile.ZIP_DEFLATED, 9)
