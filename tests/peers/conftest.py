"""Fixtures for the tests of the library of passes: the built library, and its Python module."""

import importlib
import sys

import pytest

import bindings


@pytest.fixture(scope="session")
def library(tmp_path_factory):
    """Builds the library in a folder, and returns the folder."""
    room = tmp_path_factory.mktemp("clubpass")
    bindings.build_library(room)
    return room


@pytest.fixture(scope="session")
def clubpass(library):
    sys.path.insert(0, f"{library}/lib/python3")
    return importlib.import_module("clubpass")
