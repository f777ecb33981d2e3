"""The toolchain's own module, of which `rt` is made."""
import importlib.machinery
import importlib.util
import os
import shutil
import sys


def toolchain():
    """The module beside the `rt` on the path."""
    path = os.path.join(os.path.dirname(os.path.realpath(shutil.which('rt'))), 'rtlib.py')
    loader = importlib.machinery.SourceFileLoader('rtlib', path)
    module = importlib.util.module_from_spec(importlib.util.spec_from_loader('rtlib', loader))
    sys.modules['rtlib'] = module
    loader.exec_module(module)
    return module
