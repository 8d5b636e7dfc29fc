"""What pip runs to build this folder, which can't be built by itself (PEP 517, PEP 660)."""
import sys


def build_wheel(*_: object, **__: object) -> None:
    sys.exit("deomigal isn't built from this folder: the wheel needs its library. Install the wheel in the project's folder "
             "release, as README.md says, or build one there with tools/install PREFIX. Without a wheel these sources run "
             "with PYTHONPATH=python, and DEOMIGAL_LIBRARY names libcookie_c.so.")


build_sdist = build_editable = get_requires_for_build_wheel = get_requires_for_build_editable = build_wheel
prepare_metadata_for_build_wheel = prepare_metadata_for_build_editable = build_wheel
