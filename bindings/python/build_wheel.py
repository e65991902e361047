"""Makes the wheel, of the standard library alone, so that it is built without a network: maulgreen.py with libmaulgreen.so
beside it, that of MAULGREEN_LIB or of bindings/c.

    pip wheel --no-index --no-deps --no-build-isolation -w DIR bindings/python
"""
import base64
import hashlib
import os
import sysconfig
import zipfile
from pathlib import Path

HERE = Path(__file__).resolve().parent
NAME, VERSION = "maulgreen", "0.3.0"
TAG = "py3-none-" + sysconfig.get_platform().replace("-", "_").replace(".", "_")
METADATA = f"""Metadata-Version: 2.1
Name: {NAME}
Version: {VERSION}
Summary: A die of a proved flash translation layer with deadlines
Requires-Python: >=3.9
"""
WHEEL = f"""Wheel-Version: 1.0
Generator: {NAME}
Root-Is-Purelib: false
Tag: {TAG}
"""


def build_wheel(wheel_directory, config_settings=None, metadata_directory=None):
    library = Path(os.environ.get("MAULGREEN_LIB") or HERE / "../c/out/libmaulgreen.so").resolve()
    about = f"{NAME}-{VERSION}.dist-info"
    files = {f"{NAME}.py": (HERE / f"{NAME}.py").read_bytes(), "libmaulgreen.so": library.read_bytes(),
             f"{about}/METADATA": METADATA.encode(), f"{about}/WHEEL": WHEEL.encode()}
    record = ""
    for name, bytes_of in files.items():
        digest = base64.urlsafe_b64encode(hashlib.sha256(bytes_of).digest()).rstrip(b"=").decode()
        record += f"{name},sha256={digest},{len(bytes_of)}\n"
    made = f"{NAME}-{VERSION}-{TAG}.whl"
    with zipfile.ZipFile(Path(wheel_directory) / made, "w", zipfile.ZIP_DEFLATED) as wheel:
        for name, bytes_of in {**files, f"{about}/RECORD": (record + f"{about}/RECORD,,\n").encode()}.items():
            wheel.writestr(name, bytes_of)
    return made
