"""The package: its versions, where it can be imported, what keeps it from being built, and what its pages and stubs say."""
import importlib.metadata
import inspect
import os
import re
import shutil
import subprocess
import sys
import tempfile
import unittest

import cadwrelch
from cadwrelch import _core, core

HERE = os.path.dirname(os.path.abspath(__file__))
SOURCES = os.environ.get('CADWRELCH_SOURCES', os.path.dirname(HERE))
"""bindings/python of a clone, or an sdist: the tests may be run without it, as those of a wheel are."""
HAS_SOURCES = os.path.isfile(os.path.join(SOURCES, 'setup.py'))
PARENT = os.path.dirname(os.path.dirname(os.path.abspath(cadwrelch.__file__)))
needs_sources = unittest.skipUnless(HAS_SOURCES, 'CADWRELCH_SOURCES names no bindings/python')


def python(code, *arguments, **environment):
    """What a program says, and its status."""
    ran = subprocess.run([sys.executable, '-c', code, *arguments], stdout=subprocess.PIPE, stderr=subprocess.STDOUT, universal_newlines=True,
                         env=dict(os.environ, **environment), cwd=PARENT)
    return ran.stdout, ran.returncode


def of_the_core(name):
    for folder in (os.path.join(SOURCES, 'core'), os.path.join(SOURCES, '..', 'core')):
        if os.path.isfile(os.path.join(folder, name)):
            return os.path.join(folder, name)
    raise FileNotFoundError(name)


class Versions(unittest.TestCase):
    def number(self, version):
        major, minor, patch = map(int, version.split('.'))
        return 1_000_000 * major + 1000 * minor + patch

    def test_the_library_is_of_this_version(self):
        self.assertEqual(self.number(cadwrelch.__version__), core.LIBRARY.jc_version())
        self.assertEqual([_core.VERSION, core.VERSION], [core.LIBRARY.jc_version()] * 2)

    def test_the_distribution_is_of_this_version(self):
        try:
            installed = importlib.metadata.distribution('cadwrelch')
        except importlib.metadata.PackageNotFoundError:
            self.skipTest('it is not installed')
        if os.path.realpath(installed.locate_file('cadwrelch')) != os.path.realpath(os.path.dirname(cadwrelch.__file__)):
            self.skipTest('another one is installed')
        self.assertEqual(installed.version, cadwrelch.__version__)

    @needs_sources
    def test_the_sources_are_of_this_version(self):
        with open(of_the_core('VERSION')) as file:
            self.assertEqual(file.read().strip(), cadwrelch.__version__)
        with open(of_the_core(os.path.join('include', 'cadwrelch.h'))) as file:
            self.assertIn(f'JC_VERSION = {self.number(cadwrelch.__version__)} ', file.read())
        with open(os.path.join(SOURCES, 'pyproject.toml')) as file:
            self.assertIn('version = {attr = "cadwrelch._version.__version__"}', file.read())

    @unittest.skipUnless(shutil.which('cc'), 'there is no cc')
    def test_a_library_of_another_version(self):
        with tempfile.TemporaryDirectory() as folder:
            source, path = os.path.join(folder, 'other.c'), os.path.join(folder, 'libother.so')
            names = sorted(set(re.findall(r"'(jc_\w+)': \(", inspect.getsource(core))) - {'jc_version'})
            for text, told in ((''.join(f'void {name}(void) {{}}\n' for name in names) + 'unsigned jc_version(void) { return 9001002; }\n',
                                f'this module is for the core {cadwrelch.__version__}, and {path} is the core 9.1.2'),
                               ('int other;\n', f'{path} is not the core {cadwrelch.__version__}')):
                with open(source, 'w') as file:
                    file.write(text)
                subprocess.run(['cc', '-shared', '-fPIC', '-o', path, source], check=True)
                said, status = python('import cadwrelch.core', CADWRELCH_CORE_SO=path)
                self.assertIn(f'ImportError: {told}', said)
                self.assertEqual(status, 1)


class Interpreters(unittest.TestCase):
    def test_a_subinterpreter_is_refused(self):
        for module in ('_interpreters', '_xxsubinterpreters'):
            try:
                __import__(module)
                break
            except ImportError:
                pass
        else:
            self.skipTest('this Python makes no subinterpreters')
        code = f'''
import {module} as interpreters, sys
kinds = [('isolated', True), ('legacy', False)] if {module!r} == '_xxsubinterpreters' else [('isolated', 'isolated'), ('legacy', 'legacy')]
import cadwrelch
for name, kind in kinds:
    for before in (False, True):
        one = interpreters.create(isolated=kind) if isinstance(kind, bool) else interpreters.create(kind)
        text = """
import sys
sys.path[:] = %r
try:
    import cadwrelch
    print('imported')
except ImportError as error:
    print(error)
""" % (sys.path,)
        sys.stdout.flush()
        interpreters.run_string(one, text)
cache = cadwrelch.Cache(loader=str)
assert cache[1] == '1'
print('still there')
'''
        said, status = python(code)
        lines = said.splitlines()
        self.assertEqual((len(lines), lines[-1:], status), (5, ['still there'], 0), said)
        for line in lines[:-1]:
            self.assertRegex(line, "a subinterpreter can't import it|does not support loading in subinterpreters")

    def test_an_import_again(self):
        said, status = python('''
import sys
import cadwrelch
first = cadwrelch.Cache(loader=str)
for name in [name for name in sys.modules if name.startswith('cadwrelch')]:
    del sys.modules[name]
import cadwrelch as second
print(first[1], second.Cache(loader=str)[2], first is not second)
''')
        self.assertEqual((said, status), ('1 2 True\n', 0))


@needs_sources
class Builds(unittest.TestCase):
    """What keeps the extension from being built is one sentence."""

    def refused(self, told, patch='', **environment):
        code = f'''
import os, platform, shutil, sys, sysconfig, runpy
import setuptools.command.build_ext
os.chdir(sys.argv[1])
folder = sys.argv[2]
{patch}
sys.argv = ['setup.py', '-q', 'build_ext', '--build-lib', folder, '--build-temp', folder]
runpy.run_path('setup.py', run_name='__main__')
'''
        try:
            import setuptools  # noqa: F401
        except ImportError:
            self.skipTest('there is no setuptools')
        environment.setdefault('CADWRELCH_CORE', '')
        with tempfile.TemporaryDirectory() as folder:
            said, status = python(code, os.path.abspath(SOURCES), folder, **environment)
        self.assertNotIn('Traceback', said)
        self.assertRegex(said.splitlines()[-1], f'^cadwrelch: {told}')
        self.assertEqual(status, 1)

    def test_another_platform(self):
        there = 'the proved core is there for Linux on x86_64 and aarch64, and this is'
        self.refused(f'{there} linux on riscv64', "platform.machine = lambda: 'riscv64'")
        self.refused(f'{there} darwin on arm64', "platform.machine = lambda: 'arm64'; sys.platform = 'darwin'")
        self.refused(f'{there} win32 on AMD64', "platform.machine = lambda: 'AMD64'; sys.platform = 'win32'")

    def test_the_assembly_is_that_of_the_machine(self):
        for machine, name in (('x86_64', 'cadwrelch.s'), ('aarch64', 'cadwrelch_aarch64.s')):
            self.refused(f'.*{re.escape(name)} is missing, the proved core for {machine}',
                         f"platform.machine = lambda: {machine!r}; exists = os.path.isfile; os.path.isfile = lambda path: not str(path).endswith('.s') and exists(path)")

    def test_an_archive_that_is_missing(self):
        self.refused('CADWRELCH_CORE names a libcadwrelch.a, and there is no /nowhere/lib.a', CADWRELCH_CORE='/nowhere/lib.a')

    def test_no_compiler(self):
        self.refused('a C compiler with its assembler is needed, and there is no nowhere-cc on the path', CC='nowhere-cc',
                     CADWRELCH_CORE=os.path.abspath(__file__))

    def test_a_compiler_that_fails(self):
        self.refused('the C compiler false, its assembler or its linker failed, as is said above', CC='false',
                     CADWRELCH_CORE=os.path.abspath(__file__))

    def test_no_headers(self):
        self.refused("Python's headers are needed", "sysconfig.get_path = lambda *_: '/nowhere'", CADWRELCH_CORE=os.path.abspath(__file__))

    def test_free_threads(self):
        self.refused('there is no build for a free-threaded CPython',
                     "get = sysconfig.get_config_var; sysconfig.get_config_var = lambda name: 1 if name == 'Py_GIL_DISABLED' else get(name)")

    def test_another_python(self):
        self.refused('the extension is for CPython, and this is PyPy', "platform.python_implementation = lambda: 'PyPy'")


class Pages(unittest.TestCase):
    def public(self):
        """Each public name, with what it is."""
        for name in cadwrelch.__all__:
            it = getattr(cadwrelch, name)
            if name != 'NONE' and callable(it):
                yield name, it
            if inspect.isclass(it):
                for method in dir(it):
                    if not method.startswith('_') and not hasattr(BaseException, method):
                        yield f'{name}.{method}', inspect.getattr_static(it, method)

    def test_each_public_method_says_what_it_does(self):
        for name, it in self.public():
            self.assertTrue((inspect.getdoc(it) or '').strip(), name)

    @needs_sources
    def test_the_page_names_each_of_them(self):
        with open(os.path.join(SOURCES, 'README.md')) as file:
            page = file.read()
        for name, it in self.public():
            self.assertIn(name.rpartition('.')[2], page, name)


if __name__ == '__main__':
    unittest.main()
