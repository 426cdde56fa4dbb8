"""The name of the wheel: for any Python 3, and for the machines that run the shared library inside."""
import sys
from pathlib import Path

LIBRARY = Path("heavy", "libheavy.so.1")
if not LIBRARY.exists():
    sys.exit("heavy: the shared library is not beside the sources; run `bin/wheel DIR` in the repository, and then "
             "`pip install DIR/heavy-*.whl`")

from setuptools import Distribution, setup  # noqa: E402
from wheel.bdist_wheel import bdist_wheel  # noqa: E402

versions = {
    tuple(map(int, word.split(b"\0")[0].split(b".")))
    for word in LIBRARY.read_bytes().split(b"\0GLIBC_")[1:]
}


class WithLibrary(Distribution):
    def has_ext_modules(self) -> bool:
        return True


class Wheel(bdist_wheel):
    def get_tag(self) -> tuple[str, str, str]:
        return "py3", "none", "manylinux_{}_{}_x86_64".format(*max(versions)[:2])


setup(cmdclass={"bdist_wheel": Wheel}, distclass=WithLibrary)
