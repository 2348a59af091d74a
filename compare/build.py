#!/usr/bin/env python3
"""Builds the reference from dimple's sources, and the programs of this folder.

    build.py                      reference, unpatched, logged, compare (mock libraries), make_replay
    build.py --libs DIR           compare linked with DIR/libcapi.a, DIR/libprobe.a and DIR/libguesses.a
    build.py --libs DIR --fuzz    also target/fuzz, for afl-fuzz of Debian's afl++
    build.py --plants [NAME ..]   builds one mock library per planted difference and shows each is found

The sources are read from ../../shared/docs/src, from the environment's DIMPLE_SRC, or --src.
Everything is written under target/.
"""
import argparse
import os
import pathlib
import re
import subprocess
import sys

sys.dont_write_bytecode = True
import patches  # noqa: E402

HERE = pathlib.Path(__file__).resolve().parent
TARGET = HERE / "target"
FILES = ["ground.rs", "aero.rs", "rk4.rs", "units.rs"]


def find_sources(given):
    tries = [given, os.environ.get("DIMPLE_SRC"), HERE / "../../shared/docs/src"]
    for t in tries:
        if t and (pathlib.Path(t) / "src--src--ground.rs.txt").exists():
            return pathlib.Path(t)
    sys.exit("dimple's sources not found: give --src or DIMPLE_SRC")


def replaced(name, text, old, new, count):
    found = text.count(old)
    if found != count:
        sys.exit(f"{name}: {found} times instead of {count}: {old!r}")
    return text.replace(old, new)


def generate(src, out, plant=None):
    out.mkdir(parents=True, exist_ok=True)
    for name in FILES:
        text = (src / f"src--src--{name}.txt").read_text()
        for table in patches.ORDER:
            for old, new, count in table.get(name, []):
                text = replaced(name, text, old, new, count)
        if plant and plant[0] == name:
            text = replaced(f"plant in {name}", text, plant[1], plant[2], 1)
        (out / name).write_text(text)


def rustc(args, gen=None):
    env = dict(os.environ)
    if gen:
        env["DIMPLE_GEN"] = str(gen)
    # no contraction, no fast math: rustc's defaults; the target's own instructions are not used
    cmd = ["rustc", "--edition", "2024", "-C", "opt-level=3", "-C", "codegen-units=4", *map(str, args)]
    subprocess.run(cmd, check=True, env=env, cwd=HERE)


def library(name, gen, cfgs=(), out=TARGET):
    out = out / f"lib{name}.rlib"
    rustc(["--crate-type", "rlib", "--crate-name", name, *[a for c in cfgs for a in ("--cfg", c)],
           "src/reference.rs", "-o", out], gen)
    return out


def mock(gen, out, crates=("capi", "probe"), cfgs=()):
    """The reference behind the same C doors, in place of the real libraries."""
    out.mkdir(parents=True, exist_ok=True)
    reference = library("dimple_ref", gen, cfgs, out)
    for crate in crates:
        rustc(["--crate-type", "cdylib", "--crate-name", crate, "--cfg", f"door_{crate}", "-A", "unused",
               "--extern", f"dimple_ref={reference}", "src/doors.rs", "-o", out / f"lib{crate}.so"])


def doors(libs):
    """The doors that the libraries have: one `--cfg has_DOOR` each, so that others are left out of the comparison."""
    found = []
    for lib in ("capi", "probe", "guesses"):
        file = next((f for f in (libs / f"lib{lib}.a", libs / f"lib{lib}.so") if f.exists()), None)
        data = file.read_bytes() if file else b""
        names = {n.decode() for n in re.findall(rb"(?<![A-Za-z0-9_])((?:dimple|probe|guess)_[a-z0-9_]+)(?=\0)", data)}
        kind = "static" if file and file.suffix == ".a" else "dylib"
        found.append((lib, file is not None, kind, names))
    return found


def program(name, libs=None, out=None, reference=TARGET / "libdimple_ref.rlib"):
    args = ["--crate-name", name, f"src/{name}.rs", "--extern", f"dimple_ref={reference}",
            "--extern", f"dimple_std={TARGET/'libdimple_std.rlib'}",
            "--extern", f"dimple_log={TARGET/'libdimple_log.rlib'}", "-o", out or TARGET / name]
    for lib, there, kind, names in doors(pathlib.Path(libs)) if libs else []:
        if not there:
            print(f"{libs} has no lib{lib}: its doors are left out")
            continue
        args += [f"-Clink-arg=-L{libs}", "-L", libs, "-l", f"{kind}={lib}"]
        args += [x for n in sorted(names) for x in ("--cfg", f"has_{n}")]
        if kind == "dylib":
            args += ["-C", f"link-arg=-Wl,-rpath,{libs}"]
    args += ["-A", "unexpected_cfgs"]
    rustc(args)


def fuzz(gen, libs):
    """One input from standard input through the library and the reference, with the coverage that afl-fuzz reads."""
    coverage = ["-C", "passes=sancov-module", "-C", "llvm-args=-sanitizer-coverage-level=3",
                "-C", "llvm-args=-sanitizer-coverage-trace-pc-guard"]
    out = TARGET / "covered"
    out.mkdir(exist_ok=True)
    reference = out / "libdimple_ref.rlib"
    rustc(["--crate-type", "rlib", "--crate-name", "dimple_ref", *coverage, "src/reference.rs", "-o", reference], gen)
    rustc([*coverage, "--extern", f"dimple_ref={reference}", "-L", f"native={libs}", "-l", "static=capi",
           "-C", "link-arg=/usr/lib/afl/afl-compiler-rt.o", "src/fuzz.rs", "-o", TARGET / "fuzz"])


def main():
    p = argparse.ArgumentParser()
    p.add_argument("--src")
    p.add_argument("--libs", help="folder with libcapi.a, libprobe.a and libguesses.a")
    p.add_argument("--fuzz", action="store_true", help="also target/fuzz, for afl-fuzz of Debian's afl++; needs --libs")
    p.add_argument("--plants", nargs="*", metavar="NAME", help="all planted differences, or those named")
    a = p.parse_args()
    src = find_sources(a.src)
    TARGET.mkdir(exist_ok=True)
    gen = TARGET / "gen"
    generate(src, gen)
    library("dimple_ref", gen)
    library("dimple_std", gen, ["unpatched"])
    library("dimple_log", gen, ["logged"])
    libs = pathlib.Path(a.libs).resolve() if a.libs else TARGET / "mock"
    if not a.libs:
        mock(gen, libs)
    program("compare", libs)
    program("make_replay")
    if a.fuzz:
        fuzz(gen, libs)
    if a.plants is not None:
        missed = []
        # std's own functions as the library: the leaves must tell each apart
        if not a.plants:
            out = TARGET / "plants" / "std"
            mock(gen, out, cfgs=["unpatched"])
            program("compare", TARGET / "mock", TARGET / "compare_mock")
            for leaf in ["hypot", "cosine", "sine", "arctangent", "exponential", "cd_cl", "impact"]:
                run = subprocess.run([TARGET / "compare_mock", "leaves", leaf, "--share", "1", "--first"],
                                     env=dict(os.environ, LD_LIBRARY_PATH=str(out)), capture_output=True, text=True)
                found = run.returncode == 1 and "DIFFERENT" in run.stdout
                print(f"std's {leaf:14} {'found' if found else 'MISSED'}", flush=True)
                if not found:
                    missed.append(leaf)
        program("compare", TARGET / "mock", TARGET / "compare_mock")
        for name in a.plants or [*patches.PLANTS, *patches.BROKEN]:
            both = name in patches.BROKEN
            out = TARGET / "plants" / name
            generate(src, out, patches.BROKEN[name] if both else patches.PLANTS[name])
            mock(out, out, ["capi", "probe"] if both else ["capi"])
            compare = TARGET / "compare_mock"
            if both:
                compare = out / "compare"
                program("compare", out, compare, out / "libdimple_ref.rlib")
            run = subprocess.run([compare, "settle", "--shots", "20000", "--first"],
                                 env=dict(os.environ, LD_LIBRARY_PATH=str(out)), capture_output=True, text=True)
            found = run.returncode == 1 and "DIFFERENT" in run.stdout and ("HISTORY" in run.stdout) >= both
            line = next((l for l in run.stdout.splitlines() if "DIFFERENT" in l), "not found")
            print(f"{name:16} {'found' if found else 'MISSED'}  {line[:110]}", flush=True)
            if not found:
                missed.append(name)
        if missed:
            sys.exit(f"planted differences missed: {missed}")


main()
