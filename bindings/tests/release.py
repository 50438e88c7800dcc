"""Makes the release, twice, unpacks it in an empty folder, and runs programs of each language from it, with no Rattle on the path."""
import os
import pathlib
import re
import shutil
import sys
import tarfile
import time

import cpp
from room import BINDINGS, ROOT, WARNINGS

CONSUMER = BINDINGS / "tests" / "consumer"

# How many seconds a machine without Rattle takes at most from the file to the last program, and longer by as much as it has more processes
# than processors.
MOST = 120

STREAM = "1\n2\n4\n8\n16\n32\n"
C_THREADS = "the double of 21 is 42\n10\n20\n30\n40\n50\nthe server has stopped\n"
RUST_THREADS = r"(HELLO, SERVERS! from UniqueServerId\(.*\)\n){2}"


def packed(room, folder):
    """Returns the release that is made in a new folder, or what was said instead."""
    folder.mkdir()
    status, output, faults = room.run([BINDINGS / "package", folder])
    return pathlib.Path(output.strip()) if status == 0 else faults


def unpacked(room, tally):
    """Makes the release twice, and unpacks it. Returns its folder, or none."""
    files = [packed(room, room.folder / it) for it in ("release", "release again")]
    if not tally.note(all(isinstance(it, pathlib.Path) for it in files), f"bindings/package makes {files[0]}"):
        return None
    first, second = (it.read_bytes() for it in files)
    tally.note(first == second, f"made again it is the same, byte for byte: {len(first)} bytes")
    at = room.folder / "unpacked"
    with tarfile.open(files[0]) as release:
        release.extractall(at)
    [tree] = at.iterdir()
    return tree


class Users:
    """Who has the release, and neither Rattle nor this repository."""

    def __init__(self, room, tally, tree):
        self.room, self.tally, self.tree = room, tally, tree
        path = os.pathsep.join(["/usr/bin", "/bin", os.path.dirname(shutil.which("cargo"))])
        self.env = {it: value for it, value in room.env.items() if not it.startswith(("RR_", "PYTHON"))}
        self.env |= {"PATH": path, "PKG_CONFIG_PATH": str(tree / "lib" / "pkgconfig"), "CARGO_TARGET_DIR": str(room.folder / "user target")}
        tally.note(shutil.which("rt", path=path) is None, "there is no Rattle on the path")

    def run(self, *words, folder=None, env=None):
        return self.room.run(words, folder or self.tree, env={**self.env, **(env or {})})

    def check(self, name, words, wanted, **how):
        """Checks what a program prints. Returns whether it does."""
        status, output, faults = self.run(*words, **how)
        is_well = status == 0 and re.fullmatch(wanted, output) is not None
        if not self.tally.note(is_well, f"from the release, {name}: status {status}, {output.strip().splitlines()[-1:]}"):
            print(output + faults)
        return is_well

    def proved(self):
        """Checks the sums in PROVED, and what it says."""
        text = (self.tree / "PROVED").read_text()
        self.tally.note(re.match(r"rr: .*\ncommit: .*\n(kit: .*\n)?proved: ", text) is not None, text.split("\n\n")[0].replace("\n", "; "))
        self.check("the sums", ["bash", "-c", "sed 1,/^$/d PROVED | sha256sum --check --quiet"], "")
        files = {str(it.relative_to(self.tree)) for it in self.tree.rglob("*") if it.is_file() and not it.is_symlink()}
        named = set(re.findall(r"^[0-9a-f]{64}  (.*)$", text, re.M))
        self.tally.note(files == named | {"PROVED"}, f"PROVED has the sums of {len(named)} files, and there are {len(files) - 1}")

    def pkg_config(self):
        """C and C++ by pkg-config, with the shared library and with the archive."""
        for compiler, program, wanted in (
            (["cc", "-std=c11"], "c/threads.c", C_THREADS),
            (["g++", "-std=c++17"], "cpp/stream.cpp", cpp.EXAMPLES["stream"]),
        ):
            for kind, flags, linked in (("shared", [], [f"-Wl,-rpath,{self.tree / 'lib'}"]), ("static", ["--static"], ["-static"])):
                _, told, faults = self.run("pkg-config", *flags, "--cflags", "--libs", "rr")
                binary = self.room.folder / f"user_{pathlib.Path(program).stem}_{kind}"
                words = [*compiler, *WARNINGS, self.tree / "examples" / program, *told.split(), *linked, "-o", binary]
                _, _, said = self.run(*words)
                self.check(f"{program}, {kind}, by pkg-config {faults}{said}".rstrip(), [binary], re.escape(wanted))

    def configured(self, name, *words):
        """Configures a project of somebody else, and returns its folder, the status and what was said."""
        project = self.room.folder / name
        project.mkdir()
        shutil.copy(CONSUMER / "CMakeLists.txt", project)
        shutil.copy(self.tree / "examples" / "c" / "threads.c", project)
        shutil.copy(self.tree / "examples" / "cpp" / "threads.cpp", project)
        prefix = [] if any("CMAKE_PREFIX_PATH" in it for it in words) else [f"-DCMAKE_PREFIX_PATH={self.tree}"]
        status, _, faults = self.run("cmake", "-S", project, "-B", project / "build", *prefix, *words)
        return project / "build", status, faults

    def cmake(self):
        """C and C++ by CMake, with the shared library and with the archive; and what is refused."""
        build, status, faults = self.configured("project")
        made = self.run("cmake", "--build", build, "--parallel", "2") if status == 0 else (status, "", faults)
        if made[0] != 0:
            print(made[1] + made[2])
        for language, wanted in (("c", C_THREADS), ("cpp", cpp.EXAMPLES["threads"])):
            for kind in ("shared", "static"):
                if (build / f"{language}_{kind}").exists():
                    self.check(f"{language}, {kind}, by CMake", [build / f"{language}_{kind}"], re.escape(wanted))
                else:
                    self.tally.note(False, f"{language}, {kind}, by CMake: it was not built")
        broken = self.room.folder / "broken"
        shutil.copytree(self.tree, broken, symlinks=True)
        (broken / "lib" / "librr.a").unlink()
        for name, words, reason in (
            ("another version", ["-DWANTED=1.0"], r"rrConfig.cmake, version: 0\.2\.0"),
            ("a missing library", [f"-DCMAKE_PREFIX_PATH={broken}"], r"lib/librr\.a is missing"),
            ("another processor", ["-DCMAKE_SYSTEM_NAME=Linux", "-DCMAKE_SYSTEM_PROCESSOR=aarch64"], "for x86_64 and Linux, and this is aarch64"),
        ):
            _, status, faults = self.configured(name, *words)
            said = re.search(reason, re.sub(r"\s+", " ", faults))
            if not self.tally.note(status not in (0, None) and said is not None, f"CMake refuses {name}: {said[0] if said else status}"):
                print(faults)

    def readme(self):
        """The commands that README.md of the repository gives for each language. Python's comes after `python`, which installs."""
        _, _, text = (ROOT / "README.md").read_text().partition("## From C, C++, Rust and Python")
        commands = re.findall(r"^    (.*threads.*)$", text.partition("The library is [proved]")[0], re.M)
        outputs = [re.escape(C_THREADS), re.escape(cpp.EXAMPLES["threads"]), RUST_THREADS, re.escape(cpp.EXAMPLES["threads"])]
        self.tally.note(len(commands) == len(outputs), f"README.md has {len(commands)} commands")
        env = {"PYTHONPATH": str(self.room.folder / "user site")}
        for command, wanted in zip(commands, outputs):
            self.check(f"`{command}`", ["bash", "-c", command], wanted, env=env)

    def rust(self):
        """Rust, by one path."""
        project = self.room.folder / "user crate"
        (project / "src" / "bin").mkdir(parents=True)
        (project / "Cargo.toml").write_text(
            f'[package]\nname = "user"\nversion = "0.1.0"\nedition = "2024"\n\n[dependencies]\nrr = {{ path = "{self.tree / "rust"}" }}\n'
        )
        for name, wanted in (("threads", RUST_THREADS), ("stream", re.escape(STREAM))):
            shutil.copy(self.tree / "rust" / "examples" / f"{name}.rs", project / "src" / "bin")
            self.check(f"Rust, {name}", ["cargo", "run", "--quiet", "--bin", name], wanted, folder=project)

    def python(self):
        """Python, by the wheel; and a wheel for another processor."""
        [wheel] = (self.tree / "python").glob("*.whl")
        site = self.room.folder / "user site"
        pip = [sys.executable, "-m", "pip", "--disable-pip-version-check", "install", "--quiet", "--no-index", "--root-user-action=ignore"]
        _, _, faults = self.run(*pip, "--target", site, wheel)
        for name, wanted in (("threads", cpp.EXAMPLES["threads"]), ("stream", cpp.EXAMPLES["stream"])):
            words = [sys.executable, self.tree / "examples" / "python" / f"{name}.py"]
            self.check(f"Python, {name} {faults}", words, re.escape(wanted), env={"PYTHONPATH": str(site)})
        other = self.room.folder / wheel.name.replace("x86_64", "aarch64")
        shutil.copy(wheel, other)
        status, _, faults = self.run(*pip, "--target", self.room.folder / "none", other)
        is_well = status not in (0, None) and "is not a supported wheel on this platform" in faults
        self.tally.note(is_well, f"a wheel for another processor: {faults.strip()}")


def check_release(room, tally):
    """Makes the release, and runs programs of each language from it."""
    tree = unpacked(room, tally)
    if tree is None:
        return
    started = time.monotonic()
    users = Users(room, tally, tree)
    users.proved()
    for language in (users.pkg_config, users.cmake, users.rust, users.python, users.readme):
        begun = time.monotonic()
        language()
        print(f"{language.__name__} took {time.monotonic() - begun:.0f} seconds")
    taken = time.monotonic() - started
    busy = max(1.0, os.getloadavg()[0] / (os.cpu_count() or 1))
    tally.note(taken <= MOST * busy, f"from the release to the last program: {taken:.0f} seconds")
