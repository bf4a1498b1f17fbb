"""Builds Rust packages of this repository for x86-64, tuned, on any machine (docs/SPEED.md).

Elsewhere than on x86-64 the kit's linker and C library are used, as for the proved programs.
"""
import glob
import os
import re
import subprocess

from counting import NATIVE, ROOT, fail, toolchain

TARGET = "x86_64-unknown-linux-gnu"
COMPILER = os.environ.get("X86_RUSTC") or "rustc"
TUNED = {"OPT_LEVEL": "3", "CODEGEN_UNITS": "1", "LTO": "fat", "PANIC": "abort"}

# In the program's start Rust asks the C library for the bounds of its stack, which reads /proc/self/maps; the
# kit's emulator fails at that. Rust takes an error for an answer.
NO_BOUNDS = "int pthread_getattr_np(unsigned long thread, void *attributes) { return 38; }\n"


def problem():
    """Why no Rust program can be built for x86-64 here, or nothing."""
    try:
        asked = [COMPILER, "--print", "target-libdir", "--target", TARGET]
        folder = subprocess.run(asked, capture_output=True, text=True, check=True).stdout.strip()
    except (OSError, subprocess.CalledProcessError):
        return f"{COMPILER} does not run"
    if not glob.glob(os.path.join(folder, "libstd-*.rlib")):
        return f"{COMPILER} has no standard library for {TARGET}: `rustup target add {TARGET}`, or X86_RUSTC=COMPILER that has one"
    return None


def version():
    """The compiler and its LLVM."""
    told = subprocess.run([COMPILER, "-vV"], capture_output=True, text=True, check=True).stdout
    return ", ".join(f"{name} {number}" for name, number in re.findall(r"^(rustc|LLVM)(?: version:)? (\S+)", told, re.M))


def linked_by_the_kit(folder):
    """The compiler's flags with which the kit's linker and C library make a program; libraries go to a folder."""
    tools = toolchain()
    library = os.path.join(tools, "lib")
    for name in ("gcc_s.so.1", "m.so.6"):
        os.symlink(os.path.join(library, "lib" + name), os.path.join(folder, f"lib{name.partition('.')[0]}.so"))
    for name in ("util", "rt", "pthread", "dl"):  # all in the C library itself
        with open(os.path.join(folder, f"lib{name}.a"), "w") as file:
            file.write("!<arch>\n")
    with open(os.path.join(folder, "libc.so"), "w") as file:
        parts = [os.path.join(library, name) for name in ("libc.so.6", "libc_nonshared.a", "ld-linux-x86-64.so.2")]
        file.write(f"INPUT({' '.join(parts)})\n")
    stub = os.path.join(folder, "no_bounds.o")
    clang = [os.path.join(tools, "bin", "clang"), f"--target={TARGET}", "-O2", "-fPIC", "-x", "c", "-c", "-", "-o", stub]
    subprocess.run(clang, input=NO_BOUNDS, text=True, check=True)
    ends = [os.path.join(library, name) for name in ("Scrt1.o", "crti.o", "crtbeginS.o", "crtendS.o", "crtn.o")]
    words = ["-dynamic-linker", "/lib64/ld-linux-x86-64.so.2", *ends[:3], stub, *ends[3:]]
    flags = ["-Clinker-flavor=ld.lld", f"-Clinker={os.path.join(tools, 'bin', 'ld.lld')}", "-L", folder]
    return flags + [f"-Clink-arg={word}" for word in words]


def build(package, folder):
    """The x86-64 program of a package, built for release; what the linker needs goes to an empty folder."""
    settings = {key: value for key, value in os.environ.items() if key not in ("RUSTFLAGS", "CARGO_BUILD_TARGET")}
    settings.update({f"CARGO_PROFILE_RELEASE_{key}": value for key, value in TUNED.items()})
    settings.update(RUSTC=COMPILER, CARGO_TARGET_DIR=os.path.join(ROOT, "target/measure"))
    settings["CARGO_ENCODED_RUSTFLAGS"] = "" if NATIVE else "\x1f".join(linked_by_the_kit(folder))
    manifest = os.path.join(ROOT, package, "Cargo.toml")
    done = subprocess.run(
        ["cargo", "build", "--release", "--offline", "--quiet", "--target", TARGET, "--manifest-path", manifest], env=settings
    )
    if done.returncode != 0:
        fail(f"{package} cannot be built for {TARGET}, as told above")
    return os.path.join(ROOT, "target/measure", TARGET, "release", os.path.basename(package))
