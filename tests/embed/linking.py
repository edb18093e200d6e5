"""The shared library for the tests. It is linked over what rt ci has just proved, where that is there, and else by python/setup."""
import importlib.machinery
import importlib.util
import pathlib
import subprocess
import tempfile

TOP = pathlib.Path(__file__).resolve().parent.parent.parent
SETUP = TOP / 'python' / 'setup'


def prover():
    """tools/prove as a module."""
    loader = importlib.machinery.SourceFileLoader('prove', str(TOP / 'tools' / 'prove'))
    found = importlib.util.module_from_spec(importlib.util.spec_from_loader('prove', loader))
    loader.exec_module(found)
    return found


def kept(name):
    """Where rt ci leaves a library."""
    return TOP / 'crates' / name / 'out' / 'rlib' / (name + '.rlib')


def build(prove, folder):
    """Proves the library once more, over those that rt ci left, and builds it in the folder."""
    prove.OUT = folder
    for name in prove.below(prove.LIBRARY):
        prove.made(name).symlink_to(kept(name))
    status = prove.begin_proof(prove.LIBRARY).wait()
    made = prove.part_of(prove.LIBRARY)
    if status:
        raise RuntimeError((made / 'said').read_text(errors='replace')[-2000:])
    return made / prove.made(prove.LIBRARY).name


def link():
    prove = prover()
    if not all(kept(name).exists() for name in prove.below(prove.LIBRARY)):
        subprocess.run([str(SETUP)], check=True, stdout=subprocess.DEVNULL)
        return
    with tempfile.TemporaryDirectory() as folder:
        subprocess.run([str(SETUP), '--library', str(build(prove, pathlib.Path(folder)))], check=True)
