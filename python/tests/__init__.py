"""Tests of the package fowlyore: `python3 -m unittest discover -t .. -s tests` from the folder python."""
