"""Prints where this interpreter looks for packages below PREFIX, or its own folder for packages if that lies elsewhere.

Usage: PYTHON .ci/python_folder.py PREFIX
"""
import pathlib
import site
import sys
import sysconfig


def folder_below(prefix):
    """Returns the folder for packages, of `lib` or `lib64` below this prefix if the interpreter looks there."""
    of_user = [site.getusersitepackages()] if site.ENABLE_USER_SITE else []
    own = [pathlib.Path(sysconfig.get_path("purelib"))]
    for folder in [*map(pathlib.Path, site.getsitepackages() + of_user), *own]:
        if any(pathlib.Path(prefix, lib) in folder.parents for lib in ("lib", "lib64")):
            return folder
    return own[0]


if __name__ == "__main__":
    print(folder_below(sys.argv[1]))
