"""What a script needs to build the archive and the programs with the Rattle kit, and C beside them.

The kit compiles for x86-64 Linux and runs there alone, so what is built runs where it is built. A tool that is missing is installed where this is a Debian
machine's root.
"""

import os
import pathlib
import shutil
import subprocess
import sys
import tempfile


def kit():
    """The folder of the Rattle kit."""
    if not shutil.which("rt"):
        sys.exit("the Rattle kit ('rt') must be on the PATH")
    return pathlib.Path(subprocess.run(["rt", "doc"], check=True, capture_output=True, text=True).stdout.strip()).parent


def needed(name, *packages):
    """The name of a program that must be on the PATH. Where it is missing and this is a Debian machine's root, its packages are installed."""
    if packages and not shutil.which(name) and shutil.which("apt-get") and os.geteuid() == 0:
        for words in (["update"], ["install", "-y", "--no-install-recommends", *packages]):
            subprocess.run(["apt-get", "-q", *words], check=True, stdout=subprocess.DEVNULL, env={**os.environ, "DEBIAN_FRONTEND": "noninteractive"})
    if not shutil.which(name):
        sys.exit(f"{name} must be on the PATH" + (f" (Debian: {packages[0]})" if packages else ""))
    return name


def compiler():
    """A C compiler: $CC, or gcc."""
    return needed(os.environ["CC"]) if "CC" in os.environ else needed("gcc", "gcc", "libc6-dev")


def sources(top):
    """All that the crates are made of."""
    return [top / "crates.txt", *(source for part in ("src/**/*.rt", "specs/**/*.antt", "proofs/**/*.antt") for source in top.glob(f"crates/*/{part}"))]


def newer(made, made_of):
    """Whether it is there, and newer than all that it is made of."""
    return made.exists() and all(source.stat().st_mtime < made.stat().st_mtime for source in made_of)


def built(top, name, made, words):
    """The path of what is made of the crate, in its out/. Where it is not there or older than a source, all that it stands on is proved and it is made."""
    made = top / "crates" / name / "out" / made
    if not newer(made, sources(top)):
        kit()
        print(f"{made.name} is built, and all that it stands on is proved: some minutes, once", file=sys.stderr)
        done = subprocess.run(words, cwd=top / "crates" / name, stdin=subprocess.DEVNULL, capture_output=True, text=True)
        if done.returncode != 0 or not made.exists():
            sys.exit(f"{(done.stdout + done.stderr)[-4000:]}{made.name}: it could not be built ('{' '.join(words)}' in crates/{name} gives {done.returncode})")
        made.touch()
    return made


# the archive's code is for every x86-64 processor, since nothing asks where it is linked; a program asks as it starts for what the kit's default wants
ARCHIVE = ["rt", "lib", "--cpu=x86-64"]


def archive(top):
    """The archive of the C call."""
    return built(top, "tongsparkle_c", "libtongsparkle_c.a", ARCHIVE)


def program(top, name):
    """The crate's program. To make it, 'rt run' also runs it once, without input."""
    return built(top, name, name, ["rt", "run"])


def sanitized(top, out):
    """The C call's code compiled for the address sanitizer: the very LLVM module that the kit's compiler is given, with every function of it marked, since
    clang looks after those that are marked and the kit marks none."""
    real = kit()
    with tempfile.TemporaryDirectory() as home:
        home = pathlib.Path(home)
        (home / "kit" / "toolchain" / "bin").mkdir(parents=True)
        (home / "kit" / "bin").mkdir()
        # a kit of links, but for its command, which goes by where it is itself, and for one program: a compiler that keeps what it is given
        for part in ("", "bin", "toolchain", "toolchain/bin"):
            for entry in (real / part).iterdir():
                here = home / "kit" / part / entry.name
                if entry.name in ("rt", "rtlib.py"):
                    shutil.copy(entry, here)
                elif not here.exists() and entry != real / "toolchain" / "bin" / "clang":
                    here.symlink_to(entry)
        module, clang = home / "module.bc", real / "toolchain" / "bin" / "clang"
        keeper = home / "kit" / "toolchain" / "bin" / "clang"
        keeper.write_text(f"""#!/bin/sh
for word in "$@"; do case $word in *.bc) cp "$word" {module} ;; esac; done
exec {clang} "$@"
""")
        keeper.chmod(0o755)
        archive(top)
        done = subprocess.run([home / "kit" / "bin" / "rt", *ARCHIVE[1:]], cwd=top / "crates" / "tongsparkle_c", capture_output=True, text=True)
        if done.returncode != 0 or not module.exists():
            sys.exit(f"the LLVM module of the C call could not be had:\n{done.stdout}{done.stderr}")
        words = [clang, "--target=x86_64-unknown-linux-gnu", "-O3", "-fPIC", "-Wno-override-module", "-fsanitize=address"]
        words += ["-mllvm", "-force-attribute=sanitize_address", "-c", "-x", "ir", module, "-o", out]
        done = subprocess.run(words, capture_output=True, text=True)
        if done.returncode != 0:
            sys.exit(f"the LLVM module of the C call does not compile for the address sanitizer:\n{done.stderr}")
    return out
