"""make_wheel.py LIBRARY FOLDER: a wheel of the package with this libets.so in it, for this processor. The same files give the same bytes."""
import base64, hashlib, os, platform, re, sys, zipfile

here = os.path.dirname(os.path.abspath(__file__))
library, folder = sys.argv[1:3]
version = re.search(r'^version = "(.*)"', open(f"{here}/pyproject.toml").read(), re.M)[1]
tag = f"py3-none-linux_{platform.machine()}"
info = f"ets-{version}.dist-info"
files = {f"ets/{name}": open(f"{here}/ets/{name}", "rb").read() for name in sorted(os.listdir(f"{here}/ets")) if name.endswith((".py", ".typed"))}
files["ets/libets.so"] = open(library, "rb").read()
readme = open(f"{here}/README.md").read()
files[f"{info}/METADATA"] = f"""Metadata-Version: 2.1
Name: ets
Version: {version}
Summary: A verified compiler and emulator for an explicit token store machine
Requires-Python: >=3.9
Description-Content-Type: text/markdown

{readme}""".encode()
files[f"{info}/WHEEL"] = f"Wheel-Version: 1.0\nGenerator: make_wheel.py\nRoot-Is-Purelib: false\nTag: {tag}\n".encode()
digest = lambda data: base64.urlsafe_b64encode(hashlib.sha256(data).digest()).rstrip(b"=").decode()
record = "".join(f"{name},sha256={digest(data)},{len(data)}\n" for name, data in files.items()) + f"{info}/RECORD,,\n"
files[f"{info}/RECORD"] = record.encode()
path = os.path.join(folder, f"ets-{version}-{tag}.whl")
with zipfile.ZipFile(path, "w", zipfile.ZIP_DEFLATED) as it:
    for name, data in files.items():
        entry = zipfile.ZipInfo(name, (1980, 1, 1, 0, 0, 0))
        entry.external_attr, entry.compress_type = 0o644 << 16, zipfile.ZIP_DEFLATED
        it.writestr(entry, data)
print(path)
