"""The wheel: for any platform, or, where the library lies in the package (as `wheel` puts it there), for this one."""

from pathlib import Path

from setuptools import setup
from setuptools.dist import Distribution

try:
    from setuptools.command.bdist_wheel import bdist_wheel
except ImportError:  # before setuptools 70.1
    from wheel.bdist_wheel import bdist_wheel  # type: ignore[no-redef]

HAS_LIBRARY = (Path(__file__).parent / "src/h26x/libh26x.so.0").is_file()


class OfPlatform(Distribution):
    def has_ext_modules(self) -> bool:
        return HAS_LIBRARY


class AnyPython(bdist_wheel):
    """The library is loaded by ctypes, so any Python of the platform will do."""

    def get_tag(self):  # type: ignore[no-untyped-def]
        return ("py3", "none", super().get_tag()[2])


setup(distclass=OfPlatform, cmdclass={"bdist_wheel": AnyPython})
