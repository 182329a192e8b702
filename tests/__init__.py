"""Tests of the program as a user meets it, by std's unittest: `make test`, or `python3 -m unittest tests.copies -k window`."""
