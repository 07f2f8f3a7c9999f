"""Builds a wheel of the module with the shared library in it, by the standard library alone: `pip wheel c/python`, or `pip install c/python`.

The library is that of this clone's out/c, or KCAS_LIB; so the wheel is for this system and processor. Build it first: tools/c/build.sh.
"""
import base64
import hashlib
import os
import re
import sysconfig
import zipfile

HERE = os.path.dirname(os.path.abspath(__file__))
TOP = os.path.dirname(os.path.dirname(HERE))


def _project():
    with open(os.path.join(HERE, "pyproject.toml")) as file:
        return dict(re.findall(r'^([\w-]+) = "(.*)"$', file.read(), re.M))


def _files(about, folder, tag):
    """The wheel's files: each name with its bytes."""
    for name in sorted(os.listdir(os.path.join(HERE, "kcas"))):
        if name.endswith((".py", ".typed")):
            yield "kcas/" + name, os.path.join(HERE, "kcas", name)
    yield "kcas/libkcas.so", os.environ.get("KCAS_LIB", os.path.join(TOP, "out", "c", "libkcas.so"))
    for name in ("LICENSE-APACHE", "LICENSE-MIT"):
        yield folder + "/licenses/" + name, os.path.join(TOP, name)
    yield folder + "/METADATA", (
        "Metadata-Version: 2.1\nName: {name}\nVersion: {version}\nSummary: {description}\nLicense: Apache-2.0 OR MIT\nRequires-Python: {requires-python}\n".format_map(about).encode()
    )
    yield folder + "/WHEEL", ("Wheel-Version: 1.0\nGenerator: kcas\nRoot-Is-Purelib: false\nTag: %s\n" % tag).encode()


def build_wheel(wheel_directory, config_settings=None, metadata_directory=None):
    about = _project()
    named = "{name}-{version}".format_map(about)
    folder = named + ".dist-info"
    tag = "py3-none-" + re.sub(r"[-.]", "_", sysconfig.get_platform())
    wheel = "%s-%s.whl" % (named, tag)
    record = []
    with zipfile.ZipFile(os.path.join(wheel_directory, wheel), "w", zipfile.ZIP_DEFLATED) as made:
        for name, what in _files(about, folder, tag):
            if isinstance(what, str):
                with open(what, "rb") as file:
                    what = file.read()
            made.writestr(name, what)
            digest = base64.urlsafe_b64encode(hashlib.sha256(what).digest()).rstrip(b"=").decode()
            record.append("%s,sha256=%s,%d\n" % (name, digest, len(what)))
        made.writestr(folder + "/RECORD", "".join(record) + folder + "/RECORD,,\n")
    return wheel


def get_requires_for_build_wheel(config_settings=None):
    return []
