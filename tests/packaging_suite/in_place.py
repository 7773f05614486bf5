"""A plugin of pytest: fowlyore's five modules take the place of packaging's."""

import sys

import packaging
import packaging._parser  # (which reads packaging's own specifiers, and is tested by itself)
import packaging.markers
import packaging.utils

import fowlyore.markers
import fowlyore.requirements
import fowlyore.specifiers
import fowlyore.utils
import fowlyore.version

# What the tests of markers import of packaging's insides.
for inner in ("format_full_version",):
    setattr(fowlyore.markers, inner, getattr(packaging.markers, inner))

for name in ("version", "specifiers", "requirements", "markers", "utils"):
    module = getattr(fowlyore, name)
    sys.modules[f"packaging.{name}"] = module
    setattr(packaging, name, module)
