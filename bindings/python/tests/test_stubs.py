"""The stubs say what is there: by mypy's stubtest, if it is installed, and by a comparison of names and signatures in any case."""
import ast
import importlib
import importlib.util
import inspect
import os
import subprocess
import sys
import unittest

import cadwrelch

PACKAGE = os.path.dirname(os.path.abspath(cadwrelch.__file__))
PARENT = os.path.dirname(PACKAGE)


def stubs():
    """Each stub with its module."""
    for name in sorted(os.listdir(PACKAGE)):
        if name.endswith('.pyi'):
            module = 'cadwrelch' if name == '__init__.pyi' else f'cadwrelch.{name[:-4]}'
            with open(os.path.join(PACKAGE, name)) as file:
                yield importlib.import_module(module), ast.parse(file.read())


def parameters_of_stub(function):
    """Each parameter as (name, kind, whether it has a default). The name of one that is given by place alone doesn't count."""
    of, found = function.args, []
    places = [*of.posonlyargs, *of.args]
    for number, one in enumerate(places):
        kind = 'place' if number < len(of.posonlyargs) else 'any'
        found.append((one.arg, kind, number >= len(places) - len(of.defaults)))
    if of.vararg:
        found.append((of.vararg.arg, 'places', False))
    found += [(one.arg, 'name', default is not None) for one, default in zip(of.kwonlyargs, of.kw_defaults)]
    if of.kwarg:
        found.append((of.kwarg.arg, 'names', False))
    return [(None if kind == 'place' else name, kind, default) for name, kind, default in found]


KINDS = {inspect.Parameter.POSITIONAL_ONLY: 'place', inspect.Parameter.POSITIONAL_OR_KEYWORD: 'any', inspect.Parameter.VAR_POSITIONAL: 'places',
         inspect.Parameter.KEYWORD_ONLY: 'name', inspect.Parameter.VAR_KEYWORD: 'names'}


def parameters_of(function):
    found = [(one.name, KINDS[one.kind], one.default is not one.empty) for one in inspect.signature(function).parameters.values()]
    return [(None if kind == 'place' else name, kind, default) for name, kind, default in found]


def without_self(parameters):
    return parameters[1:]


class Stubs(unittest.TestCase):
    def test_names_and_signatures(self):
        compared = 0
        for module, stub in stubs():
            for definition in stub.body:
                if isinstance(definition, ast.AnnAssign):
                    self.assertTrue(hasattr(module, definition.target.id), (module.__name__, definition.target.id))
                elif isinstance(definition, ast.FunctionDef) and not self.is_overload(definition):
                    self.assertEqual(parameters_of_stub(definition), parameters_of(getattr(module, definition.name)))
                elif isinstance(definition, ast.ClassDef) and hasattr(module, definition.name):
                    compared += self.compare(getattr(module, definition.name), definition)
                elif isinstance(definition, ast.ClassDef):
                    self.assertTrue(definition.name.startswith('_'), definition.name)
        self.assertGreater(compared, 70)

    def is_overload(self, function):
        return any(getattr(decorator, 'id', None) == 'overload' for decorator in function.decorator_list)

    def compare(self, kind, stub):
        """Whether a class has what its stub says, and nothing else that is public."""
        said, count = set(), 0
        for definition in stub.body:
            if isinstance(definition, ast.AnnAssign):
                said.add(definition.target.id)
            if not isinstance(definition, (ast.FunctionDef, ast.AsyncFunctionDef)):
                continue
            said.add(definition.name)
            there = inspect.getattr_static(kind, definition.name)
            if definition.decorator_list or definition.name == '__init__' or type(there).__name__ in ('wrapper_descriptor', 'classmethod'):
                continue
            try:
                has = parameters_of(getattr(kind, definition.name))
            except ValueError:
                continue   # a private method of C says no signature
            self.assertEqual(without_self(parameters_of_stub(definition)), without_self(has), (kind, definition.name))
            self.assertEqual(isinstance(definition, ast.AsyncFunctionDef), inspect.iscoroutinefunction(there), (kind, definition.name))
            count += 1
        public = {name for name in vars(kind) if not name.startswith('_')}
        self.assertLessEqual(public, said, kind)
        return count

    def test_all_names(self):
        _, stub = next(pair for pair in stubs() if pair[0] is cadwrelch)
        said = next(ast.literal_eval(one.value) for one in stub.body if isinstance(one, ast.Assign) and one.targets[0].id == '__all__')
        self.assertEqual(said, cadwrelch.__all__)
        for name in said:
            self.assertTrue(hasattr(cadwrelch, name), name)

    @unittest.skipUnless(importlib.util.find_spec('mypy'), 'mypy is not installed')
    def test_stubtest(self):
        environment = dict(os.environ, PYTHONPATH=PARENT)
        if 'site-packages' not in PARENT:
            environment['MYPYPATH'] = PARENT
        ran = subprocess.run([sys.executable, '-m', 'mypy.stubtest', 'cadwrelch'], stdout=subprocess.PIPE, stderr=subprocess.STDOUT,
                             universal_newlines=True, env=environment, cwd=os.path.dirname(os.path.abspath(__file__)))
        self.assertEqual(ran.returncode, 0, ran.stdout)


if __name__ == '__main__':
    unittest.main()
