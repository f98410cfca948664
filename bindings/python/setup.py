"""Builds the package from a checkout or an sdist; without a compiler, or below Python 3.10, it calls the libraries by ctypes."""
import os
import pathlib
import sys

from setuptools import Extension, setup

HERE = pathlib.Path(__file__).resolve().parent


def found(*places):
    return next(it for it in (HERE / place for place in places) if it.exists())


def extension(name):
    include = [os.environ.get("CELLAR_INCLUDE", ""), os.path.relpath(found("include", "../../crates/cellarcliff"), HERE)]
    return Extension(f"cellarcliff._{name}", [f"extension/{name}.c"], include_dirs=[it for it in include if it], py_limited_api=True, optional=True)


setup(version=found("VERSION", "../../VERSION").read_text().strip(),
      ext_modules=[extension("engine")] if sys.version_info >= (3, 10) else [],
      options={"bdist_wheel": {"py_limited_api": "cp310"}} if sys.version_info >= (3, 10) else {})
