"""Adds the line with the counts that the gate reads to the end of pytest's output, builds the Python package once for a
run, and closes what the tests of a file opened."""
import fcntl
import os
import sys
import unittest

import pytest

import python_package


def pytest_configure(config):
    config.addinivalue_line('markers', 'timed: measures time, and so runs by itself')


def pytest_terminal_summary(terminalreporter):
    stats = terminalreporter.stats
    terminalreporter.passed_and_failed = (
        len(stats.get('passed', ())), len(stats.get('failed', ())) + len(stats.get('error', ())))


def pytest_unconfigure(config):
    reporter = config.pluginmanager.get_plugin('terminalreporter')
    if reporter and hasattr(reporter, 'passed_and_failed'):
        passed, failed = reporter.passed_and_failed
        print(f'{passed} passed, {failed} failed', flush=True)


@pytest.fixture(scope='module', autouse=True)
def done_modules():
    """Does what unittest leaves to the end of a file, as closing a browser, and pytest doesn't do."""
    yield
    unittest.doModuleCleanups()


@pytest.fixture(scope='session')
def python_site(tmp_path_factory):
    """A folder with the package for Python, which pip built offline from a copy; one for all workers of a run."""
    shared = tmp_path_factory.getbasetemp()
    if 'PYTEST_XDIST_WORKER' in os.environ:
        shared = shared.parent
    with open(shared / 'python.lock', 'w', encoding='utf-8') as lock:
        fcntl.flock(lock, fcntl.LOCK_EX)
        if not (shared / 'python').exists():
            python_package.install(shared / 'python-hosts', shared / 'python')
    return shared / 'python'


@pytest.fixture(scope='session')
def trac_t64(python_site):
    """The module."""
    sys.path.insert(0, str(python_site))
    try:
        import trac_t64 as module
        return module
    finally:
        sys.path.remove(str(python_site))
