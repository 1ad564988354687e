#!/usr/bin/env python3
"""Packs real folders: each jar below some folders is unpacked, `./fcg pack` makes its bundle, and `./fcg list` prints it.

The bundle must be the one that a packer of a few lines of Python makes of the jar's listing, byte by byte, and the types
that are listed must be those that the listing names: each path that ends `.class`, but for those below
`META-INF/versions/` and for module descriptors. A jar with a class file of a newer version is refused for the first such
file. Then some folders are made by hand: empty, absent, with links, with names that no bundle may have.
"""

import argparse
import os
import struct
import subprocess
import sys
import tempfile
import time
import zipfile

from measure import FCG, LIST, bind_memory, ready
from real_input import JAR_FOLDERS, jars, unescape

LIMIT = 67108864


def packed(files):
    """The bundle of (path, body) pairs, by the order of the paths."""
    chosen = sorted((path, body) for path, body in files.items()
                    if path.endswith(b".class") or path == b"META-INF/MANIFEST.MF")
    out = [b"FCGB", struct.pack(">HI", 1, len(chosen))]
    for path, body in chosen:
        out.append(struct.pack(">H", len(path)) + path + struct.pack(">I", len(body)) + body)
    return b"".join(out), chosen


def run(words, data=None):
    started = time.perf_counter()
    done = subprocess.run(words, input=data, stdin=None if data is not None else subprocess.DEVNULL,
                          stdout=subprocess.PIPE, stderr=subprocess.PIPE, check=False)
    return done.returncode, done.stdout, done.stderr, time.perf_counter() - started


def unpack(archive, folder):
    """Writes the jar's files below the folder, and returns what was written by path."""
    files = {}
    for info in archive.infolist():
        parts = info.filename.split("/")
        if info.is_dir() or "" in parts or "." in parts or ".." in parts:
            continue
        place = os.path.join(folder, *parts)
        os.makedirs(os.path.dirname(place), exist_ok=True)
        body = archive.read(info)
        with open(place, "wb") as out:
            out.write(body)
        files[os.fsencode(info.filename)] = body
    return files


def named(chosen):
    """The names of the types that the paths of a listing name, in the bundle's order."""
    return [path[:-len(b".class")] for path, _ in chosen
            if path.endswith(b".class") and not path.startswith(b"META-INF/versions/")
            and path.rsplit(b"/", 1)[-1] != b"module-info.class"]


def listed(text):
    return [unescape(line[len(b"type "):]) for line in text.split(b"\n") if line.startswith(b"type ")]


def check_jar(jar, totals):
    """Packs one unpacked jar; returns what differs, or None."""
    with tempfile.TemporaryDirectory(prefix="fcg-folder-") as folder:
        with zipfile.ZipFile(jar) as archive:
            files = unpack(archive, folder)
        want, chosen = packed(files)
        status, bundle, errors, took = run([FCG, "pack", folder])
        totals["pack"] += took
        if not files:
            return None if (status, bundle) == (0, want) else "an empty jar: %d %r" % (status, errors)
        if len(want) > LIMIT:
            totals["too long"] += 1
            return None if (status, errors) == (3, b'{"fault":"TooLong"}\n') else "TooLong: %d %r" % (status, errors)
        if status != 0 or bundle != want:
            return "pack: status %d, %d bytes for %d, %r" % (status, len(bundle), len(want), errors)
        totals["files"] += len(files)
        totals["entries"] += len(chosen)
        totals["bytes"] += len(bundle)
        status, text, errors, took = run(LIST, bundle)
        totals["list"] += took
        for number, (path, body) in enumerate(chosen):
            if path.endswith(b".class") and body[:4] == b"\xca\xfe\xba\xbe" and struct.unpack(">H", body[6:8])[0] > 65:
                totals["newer"] += 1
                line = b'{"entry":%d,"fault":"BadClass","index":0,"offset":6,"rule":"Version"}\n' % number
                return None if (status, errors) == (3, line) else "newer: %d %r for %r" % (status, errors, line)
        if status != 0:
            return "list: status %d, %r" % (status, errors)
        names, types = named(chosen), listed(text)
        totals["types"] += len(types)
        if names != types:
            odd = [(a, b) for a, b in zip(names, types) if a != b][:3]
            return "types: %d named, %d listed, such as %r" % (len(names), len(types), odd)
    return None


def by_hand(folder):
    """(label, path to pack, status, output or None, errors) of folders made by hand."""
    empty = os.path.join(folder, "empty")
    os.makedirs(empty)
    links = os.path.join(folder, "links")
    os.makedirs(os.path.join(links, "deep", "er"))
    with open(os.path.join(links, "deep", "A.class"), "wb") as out:
        out.write(b"a")
    os.symlink("deep/A.class", os.path.join(links, "B.class"))
    os.symlink("..", os.path.join(links, "deep", "er", "loop"))
    os.symlink(links, os.path.join(folder, "link"))
    linked, _ = packed({b"deep/A.class": b"a", b"B.class": b"a"})
    dangling = os.path.join(folder, "dangling")
    os.makedirs(dangling)
    os.symlink("nothing", os.path.join(dangling, "x"))
    odd = os.path.join(folder, "odd")
    os.makedirs(odd)
    for name in (b"a\x7f.class", b"B.class", b"z\\.class"):
        with open(os.path.join(os.fsencode(odd), name), "wb"):
            pass
    bytes_ = os.path.join(folder, "bytes")
    os.makedirs(bytes_)
    with open(os.path.join(os.fsencode(bytes_), b"\xff.class"), "wb"):
        pass
    pipe = os.path.join(folder, "pipe")
    os.makedirs(pipe)
    os.mkfifo(os.path.join(pipe, "p.class"))
    long = os.path.join(folder, "long")
    deep = os.path.join(long, *["d" * 200] * 5)
    os.makedirs(deep)
    with open(os.path.join(deep, "e" * 13 + ".class"), "wb"):
        pass
    fits, _ = packed({b"/".join([b"d" * 200] * 5) + b"/" + b"e" * 13 + b".class": b""})
    longer = os.path.join(folder, "longer")
    deep = os.path.join(longer, *["d" * 200] * 5)
    os.makedirs(deep)
    with open(os.path.join(deep, "e" * 14 + ".class"), "wb"):
        pass
    big = os.path.join(folder, "big")
    os.makedirs(big)
    most = LIMIT - 10 - 2 * (6 + 7) - 1
    for name, size in (("a.class", most), ("b.class", 1)):
        with open(os.path.join(big, name), "wb") as out:
            out.truncate(size)
    whole, _ = packed({b"a.class": bytes(most), b"b.class": b"\0"})
    bigger = os.path.join(folder, "bigger")
    os.makedirs(bigger)
    for name, size in (("a.class", most), ("b.class", 2), ("c\x7f.class", 0)):
        with open(os.path.join(bigger, name), "wb") as out:
            out.truncate(size)
    many = os.path.join(folder, "many")
    os.makedirs(many)
    for number in range(100000):
        open(os.path.join(many, "%06d" % number), "wb").close()
    none, _ = packed({})
    yield "an empty folder", empty, 0, none, b""
    yield "an absent folder", os.path.join(folder, "absent"), 3, b"", b'{"fault":"Absent"}\n'
    yield "a file", os.path.join(links, "deep", "A.class"), 3, b"", b'{"fault":"Absent"}\n'
    yield "links, and a loop of them", links, 0, linked, b""
    yield "a link to a folder", os.path.join(folder, "link"), 0, linked, b""
    yield "a link to nothing", dangling, 4, b"", b"read failed\n"
    yield "names that no bundle may have", odd, 3, b"", b'{"entry":1,"fault":"BadPath"}\n'
    yield "a name that isn't UTF-8", bytes_, 4, b"", b"read failed\n"
    yield "a pipe", pipe, 0, none, b""
    yield "a path of 1,024 bytes", long, 0, fits, b""
    yield "a path of 1,025 bytes", longer, 3, b"", b'{"entry":0,"fault":"BadPath"}\n'
    yield "a bundle of 67,108,864 bytes", big, 0, whole, b""
    yield "a bundle of one byte more, and a bad path", bigger, 3, b"", b'{"fault":"TooLong"}\n'
    yield "100,000 files", many, 0, none, b""
    open(os.path.join(many, "x"), "wb").close()
    yield "100,001 files", many, 3, b"", b'{"fault":"TooLong"}\n'
    yield "a folder's name that begins with a hyphen", "-", 2, b"", b"words\n"
    yield "an empty name", "", 2, b"", b"words\n"


def main():
    parser = argparse.ArgumentParser(description=__doc__.splitlines()[0])
    parser.add_argument("--jars", nargs="*", default=JAR_FOLDERS, metavar="FOLDER")
    options = parser.parse_args()
    ready()
    bind_memory()
    totals = dict.fromkeys(("files", "entries", "bytes", "types", "newer", "too long", "pack", "list"), 0)
    wrong = count = 0
    for jar in sorted(jars(options.jars)):
        try:
            differs = check_jar(jar, totals)
        except (zipfile.BadZipFile, OSError, RuntimeError) as error:
            print("  passed over: %s: %s" % (jar, error))
            continue
        count += 1
        if differs:
            wrong += 1
            print("  %s: %s" % (jar, differs))
    print("%d jars, %d files, %d entries, %d bytes, %d types; %d with a newer class file, %d too long; "
          "pack %.1f s, list %.1f s; %d differ"
          % (count, totals["files"], totals["entries"], totals["bytes"], totals["types"], totals["newer"],
             totals["too long"], totals["pack"], totals["list"], wrong))
    with tempfile.TemporaryDirectory(prefix="fcg-folder-") as folder:
        for label, path, status, output, errors in by_hand(folder):
            got = run([FCG, "pack", path])
            same = got[:3] == (status, output, errors)
            wrong += not same
            print("%s: %s, %.2f s" % (label, "as it should be" if same else "%d, %d bytes, %r" % (got[0], len(got[1]), got[2]), got[3]))
    return 1 if wrong else 0


if __name__ == "__main__":
    sys.exit(main())
