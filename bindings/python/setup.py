"""Builds the extension cadwrelch._core of C and of the proved core: its assembly, or the archive that CADWRELCH_CORE names.

The assembly and the header are in ../core of a clone, and in core of an sdist. What keeps the extension from being built is said in one
sentence.
"""
import os
import platform
import shlex
import shutil
import sys
import sysconfig

from setuptools import Extension, setup
from setuptools.command.build_ext import build_ext
from setuptools.command.sdist import sdist
from setuptools.errors import CompileError, ExecError, LinkError

try:
    from setuptools.command.bdist_wheel import bdist_wheel
except ImportError:
    try:
        from wheel.bdist_wheel import bdist_wheel
    except ImportError:
        bdist_wheel = None

ASSEMBLY = {'x86_64': 'cadwrelch.s', 'aarch64': 'cadwrelch_aarch64.s'}
OF_THE_CORE = ['VERSION', 'include/cadwrelch.h', *ASSEMBLY.values()]
CORE = 'core' if os.path.isdir('core') else os.path.join('..', 'core')
ARCHIVE = os.environ.get('CADWRELCH_CORE')
SOURCES = [f'src/{name}.c' for name in ('module', 'cache', 'whole', 'outside', 'calls', 'steps', 'times', 'table')]


def refuse(sentence):
    raise SystemExit(f'cadwrelch: {sentence}')


def check_interpreter():
    if platform.python_implementation() != 'CPython':
        refuse(f'the extension is for CPython, and this is {platform.python_implementation()}.')
    if sysconfig.get_config_var('Py_GIL_DISABLED'):
        refuse("there is no build for a free-threaded CPython: the interpreter's lock protects a cache. Take the standard build of this version.")


def proved_core():
    """The file that has the core in it: an archive, or the assembly of this platform."""
    if ARCHIVE:
        if not os.path.isfile(ARCHIVE):
            refuse(f'CADWRELCH_CORE names a libcadwrelch.a, and there is no {ARCHIVE}.')
        return ARCHIVE
    machine = platform.machine()
    if sys.platform != 'linux' or machine not in ASSEMBLY:
        refuse(f'the proved core is there for Linux on {" and ".join(ASSEMBLY)}, and this is {sys.platform} on {machine or "an unknown machine"}.')
    path = os.path.join(CORE, ASSEMBLY[machine])
    if not os.path.isfile(path):
        refuse(f'{path} is missing, the proved core for {machine}: take a whole clone or sdist, or set CADWRELCH_CORE to a libcadwrelch.a.')
    return path


def check_tools(compiler):
    if shutil.which(compiler) is None:
        refuse(f'a C compiler with its assembler is needed, and there is no {compiler} on the path (of Debian: apt-get install gcc libc6-dev).')
    if not os.path.isfile(os.path.join(sysconfig.get_path('include'), 'Python.h')):
        refuse("Python's headers are needed, and there is no Python.h (of Debian: apt-get install python3-dev).")


class BuildExt(build_ext):
    """It takes assembly, too."""

    def build_extensions(self):
        check_interpreter()
        core = proved_core()
        compiler = (shlex.split(os.environ.get('CC', '')) or self.compiler.compiler_so)[0]
        check_tools(compiler)
        self.compiler.src_extensions.append('.s')
        for extension in self.extensions:
            if core == ARCHIVE:
                extension.extra_link_args += ['-Wl,--whole-archive', core, '-Wl,--no-whole-archive']
                extension.depends.append(core)
            else:
                extension.sources.append(core)
        try:
            super().build_extensions()
        except (CompileError, ExecError, LinkError) as error:
            refuse(f'the C compiler {compiler}, its assembler or its linker failed, as is said above ({error}).')


class Sdist(sdist):
    """It has the core beside it."""

    def make_release_tree(self, base_dir, files):
        super().make_release_tree(base_dir, files)
        for name in OF_THE_CORE:
            if not os.path.isfile(os.path.join(CORE, name)):
                refuse(f'{os.path.join(CORE, name)} is missing, which belongs to an sdist.')
            self.mkpath(os.path.dirname(os.path.join(base_dir, 'core', name)))
            self.copy_file(os.path.join(CORE, name), os.path.join(base_dir, 'core', name))


commands = {'build_ext': BuildExt, 'sdist': Sdist}
if bdist_wheel is not None:
    class Wheel(bdist_wheel):
        """One wheel for all CPythons from 3.10 on."""

        def finalize_options(self):
            self.py_limited_api = 'cp310'
            super().finalize_options()

    commands['bdist_wheel'] = Wheel

EXTENSION = Extension(
    'cadwrelch._core',
    sources=SOURCES,
    include_dirs=[os.path.join(CORE, 'include')],
    depends=['src/host.h'],
    extra_compile_args=['-std=c11', '-O2', '-fvisibility=hidden', '-Wall', '-Wextra', '-Wno-missing-field-initializers'],
    # The module calls its own core, whatever else the process has loaded.
    extra_link_args=['-Wl,-Bsymbolic'],
    py_limited_api=True,
)
setup(ext_modules=[EXTENSION], cmdclass=commands)
