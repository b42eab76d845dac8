"""Makes a wheel of the module with the library beside it, which is taken from the folder that CHIMENICKEL_LIB names, or
else from where bin/build-lib writes it. There is no pyproject.toml: pip would then fetch setuptools from the network,
and with this file alone the pip of Debian 12 uses the setuptools that is there."""

import os
import pathlib
import re
import shutil

from setuptools import Distribution, setup
from setuptools.command.build_py import build_py
from wheel.bdist_wheel import bdist_wheel

HERE = pathlib.Path(__file__).resolve().parent
ROOT = pathlib.Path(os.path.normpath(HERE / "../.."))  # of a folder right below the top, the top
TARGET = ROOT / "target"
LIBRARY = pathlib.Path(os.environ.get("CHIMENICKEL_LIB") or TARGET / "lib").absolute() / "libchimenickel.so"
[VERSION] = re.findall(r'^__version__ = "(.*)"$', (HERE / "chimenickel" / "__init__.py").read_text(), re.M)


class WithLibrary(build_py):
    """The module's files, and the library."""

    def run(self):
        if not LIBRARY.exists():
            raise SystemExit(
                f"there is no {LIBRARY}: bin/build-lib writes the library to target/lib,"
                " and CHIMENICKEL_LIB may name another folder"
            )
        super().run()
        shutil.copyfile(LIBRARY, pathlib.Path(self.build_lib) / "chimenickel" / LIBRARY.name)


class ForThisMachine(bdist_wheel):
    """A wheel for any Python 3 on this kind of machine: the library is called by ctypes."""

    def get_tag(self):
        return "py3", "none", super().get_tag()[2]


class Binary(Distribution):
    def has_ext_modules(self):
        return True


# what is made on the way goes where everything else that is made goes
aside = {}
if (ROOT / "crates.txt").exists():
    aside = {"build": {"build_base": str(TARGET / "python")}, "egg_info": {"egg_base": str(TARGET)}}
    TARGET.mkdir(exist_ok=True)

setup(
    name="chimenickel",
    version=VERSION,
    description="The proved failure counter for ship-stability campaigns, by its C library",
    python_requires=">=3.9",
    packages=["chimenickel"],
    package_data={"chimenickel": ["py.typed"]},
    zip_safe=False,
    options=aside,
    cmdclass={"build_py": WithLibrary, "bdist_wheel": ForThisMachine},
    distclass=Binary,
)
