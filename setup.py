"""Compiles dist/igesolid.c into a shared library beside the package, which loads it by ctypes: so one wheel fits every Python 3 of a platform."""
import os
import sys

from setuptools import Extension, setup
from setuptools.command.build_ext import build_ext
from setuptools.command.build_py import build_py

try:
    from setuptools.command.bdist_wheel import bdist_wheel
except ImportError:
    from wheel.bdist_wheel import bdist_wheel

NAME = {"win32": "igesolid.dll", "darwin": "libigesolid.dylib"}.get(sys.platform, "libigesolid.so.1")
EXPORTED = ["igesolid_run", "igesolid_where", "igesolid_repair", "igesolid_free"]
PAGE = "companion/page.html"
# How far it is optimized is as Python itself was compiled, or as CFLAGS says.
OPTIONS = [] if sys.platform == "win32" else ["-std=c99", "-g0"]


class SharedLibrary(build_ext):
    """A library of C, and no module of Python: it has its own file name, and exports no PyInit function."""

    def get_ext_filename(self, fullname):
        return os.path.join(*fullname.split(".")[:-1], NAME)

    def get_export_symbols(self, ext):
        return EXPORTED

    def get_libraries(self, ext):
        return []


class WithPage(build_py):
    """The package, and the page of `igesolid page`, which lies beside it in the repository."""

    def run(self):
        super().run()
        self.copy_file(PAGE, os.path.join(self.build_lib, "igesolid", "page.html"))


class Wheel(bdist_wheel):
    def get_tag(self):
        return "py3", "none", super().get_tag()[2]


library = Extension("igesolid.library_of_c", ["dist/igesolid.c"], include_dirs=["packaging/c"], extra_compile_args=OPTIONS)
setup(ext_modules=[library], cmdclass={"build_ext": SharedLibrary, "build_py": WithPage, "bdist_wheel": Wheel})
