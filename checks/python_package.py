"""Builds the package for Python, installs it offline into temporary folders of a check, and runs it there."""
import os
import shutil
import subprocess
import sys

from trac import TOP

# A quick build; the engine's own checks try it as users build it.
QUICK = {'CFLAGS': '-O1 -g0', 'PIP_NO_INDEX': '1', 'PIP_ROOT_USER_ACTION': 'ignore'}
BUILT = shutil.ignore_patterns('build', 'dist', '*.egg-info', '__pycache__', '*.so', '.mypy_cache')


def copy_sources(to):
    """Copies the files that the package is built from, and gives the folder of the package."""
    for name in ('c', 'python'):
        shutil.copytree(os.path.join(TOP, 'hosts', name), os.path.join(to, name), ignore=BUILT)
    return os.path.join(to, 'python')


def call(words, **more):
    """Runs a command that must succeed, and gives its output."""
    done = subprocess.run(words, capture_output=True, text=True, timeout=600, check=False, **more)
    if done.returncode:
        raise AssertionError(done.stdout + done.stderr)
    return done.stdout


def install(sources, to):
    """Installs the package into a folder, from a copy of its sources in another one."""
    call([sys.executable, '-m', 'pip', 'install', '--quiet', '--no-build-isolation', '--no-deps', '--target', to,
          copy_sources(sources)], env={**os.environ, **QUICK})


def environment(site, **more):
    """The environment of a program that finds the package."""
    return {**os.environ, 'PYTHONPATH': str(site), **more}


def python(site, script, *words, **more):
    """What a script in Python writes that uses the package."""
    return call([sys.executable, '-c', script, *words], env=environment(site), **more)
