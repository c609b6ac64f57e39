"""pip's build of the package, over zipfile: it needs neither the network nor another package. The shared libraries have to stand in clubscore/, where
`make python` puts them."""
import base64
import hashlib
import os
import re
import sysconfig
import zipfile

HERE = os.path.dirname(os.path.abspath(__file__))
LIBRARIES = ("libjudge.so", "libtally.so")
KEPT = (".py", ".json", ".css", ".typed") + LIBRARIES


def _said(key):
    with open(os.path.join(HERE, "pyproject.toml"), encoding="utf-8") as file:
        return re.search(rf'^{key} = "(.*)"$', file.read(), re.M).group(1)


def build_wheel(wheel_directory, config_settings=None, metadata_directory=None):
    for library in LIBRARIES:
        if not os.path.exists(os.path.join(HERE, "clubscore", library)):
            raise SystemExit(f"clubscore/{library} is missing: `make python` puts it there")
    name, version = _said("name"), _said("version")
    tag = "py3-none-" + sysconfig.get_platform().replace("-", "_").replace(".", "_")
    info = f"{name}-{version}.dist-info"
    files = {f"clubscore/{file}": _bytes(file) for file in sorted(os.listdir(os.path.join(HERE, "clubscore"))) if file.endswith(KEPT)}
    files[f"{info}/METADATA"] = (
        f"Metadata-Version: 2.1\nName: {name}\nVersion: {version}\nSummary: {_said('description')}\nRequires-Python: {_said('requires-python')}\n"
    ).encode()
    files[f"{info}/WHEEL"] = f"Wheel-Version: 1.0\nGenerator: clubscore\nRoot-Is-Purelib: false\nTag: {tag}\n".encode()
    record = "".join(f"{path},sha256={_digest(content)},{len(content)}\n" for path, content in files.items())
    files[f"{info}/RECORD"] = (record + f"{info}/RECORD,,\n").encode()
    wheel = f"{name}-{version}-{tag}.whl"
    with zipfile.ZipFile(os.path.join(wheel_directory, wheel), "w", zipfile.ZIP_DEFLATED) as archive:
        for path, content in files.items():
            archive.writestr(zipfile.ZipInfo(path), content)
    return wheel


def build_sdist(sdist_directory, config_settings=None):
    raise SystemExit("the package is built from the checkout, which builds the shared libraries")


def _bytes(file):
    with open(os.path.join(HERE, "clubscore", file), "rb") as opened:
        return opened.read()


def _digest(content):
    return base64.urlsafe_b64encode(hashlib.sha256(content).digest()).rstrip(b"=").decode()
