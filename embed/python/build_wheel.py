"""Makes the wheel of this folder, by Python's own library alone, so that pip needs no network.

A shared object beside the package goes into the wheel too. The wheel is then one for this machine's kind.
"""
import base64
import hashlib
import os
import re
import sysconfig
import zipfile

HERE = os.path.dirname(os.path.abspath(__file__))
PACKAGE = 'bogtrun_snes'
LIBRARY = 'libbogtrun-snes.so'


def _fields():
    """The fields of pyproject.toml that the wheel names. (Python reads that form by itself from 3.11 on.)"""
    with open(os.path.join(HERE, 'pyproject.toml'), encoding='utf-8') as file:
        return dict(re.findall(r'^([a-z-]+) = "(.*)"$', file.read(), re.M))


def _described(fields):
    return (f"Metadata-Version: 2.1\nName: {fields['name']}\nVersion: {fields['version']}\nSummary: {fields['description']}\n"
            f"License: {fields['license']}\nRequires-Python: {fields['requires-python']}\n")


def _wheel(folder, is_editable):
    fields = _fields()
    root = os.path.join(HERE, PACKAGE)
    names = sorted(name for name in os.listdir(root) if name.endswith('.py') or name in ('py.typed', LIBRARY))
    tag = 'py3-none-any'
    if LIBRARY in names and not is_editable:
        tag = 'py3-none-' + re.sub(r'[-.]', '_', sysconfig.get_platform())
    about = f"{PACKAGE}-{fields['version']}.dist-info"
    files = {f'{PACKAGE}.pth': HERE.encode() + b'\n'} if is_editable else {}
    for name in [] if is_editable else names:
        with open(os.path.join(root, name), 'rb') as file:
            files[f'{PACKAGE}/{name}'] = file.read()
    files[f'{about}/METADATA'] = _described(fields).encode()
    files[f'{about}/WHEEL'] = f'Wheel-Version: 1.0\nGenerator: build_wheel\nRoot-Is-Purelib: true\nTag: {tag}\n'.encode()
    record = ''
    for name, data in files.items():
        checksum = base64.urlsafe_b64encode(hashlib.sha256(data).digest()).rstrip(b'=').decode()
        record += f'{name},sha256={checksum},{len(data)}\n'
    files[f'{about}/RECORD'] = (record + f'{about}/RECORD,,\n').encode()
    wheel = f"{PACKAGE}-{fields['version']}-{tag}.whl"
    with zipfile.ZipFile(os.path.join(folder, wheel), 'w', zipfile.ZIP_DEFLATED) as to:
        for name, data in files.items():
            to.writestr(name, data)
    return wheel


def build_wheel(wheel_directory, config_settings=None, metadata_directory=None):
    """What pip calls for an installation."""
    return _wheel(wheel_directory, False)


def build_editable(wheel_directory, config_settings=None, metadata_directory=None):
    """What pip calls for `pip install -e`."""
    return _wheel(wheel_directory, True)
