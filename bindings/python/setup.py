"""Puts the library into the package, and says for which machines the wheel is. The variable RR_LIB_DIR may name the folder of the library,
if that is not ../lib, where `bindings/build` makes it."""
import os
import pathlib

from setuptools import Distribution, setup
from setuptools.command.build_py import build_py
from wheel.bdist_wheel import bdist_wheel

HERE = pathlib.Path(__file__).resolve().parent


class BuildWithLibrary(build_py):
    """Builds the package with librr.so in it."""

    def run(self):
        super().run()
        library = pathlib.Path(os.environ.get("RR_LIB_DIR", HERE.parent / "lib")) / "librr.so"
        if not library.exists():
            raise SystemExit(f"{library} is missing: run bindings/build, or name its folder by RR_LIB_DIR")
        self.copy_file(str(library), str(pathlib.Path(self.build_lib) / "rr" / "librr.so"))


class LibraryWheel(bdist_wheel):
    """A wheel for any Python 3 on the processor of the library."""

    def get_tag(self):
        return "py3", "none", "linux_x86_64"


class BinaryDistribution(Distribution):
    """A distribution that is not for every machine, though it compiles nothing."""

    def has_ext_modules(self):
        return True


setup(distclass=BinaryDistribution, cmdclass={"build_py": BuildWithLibrary, "bdist_wheel": LibraryWheel})
