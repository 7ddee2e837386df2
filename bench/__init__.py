"""Measures the two programs that users run: `make bench [PART ..]`. The parts are machine, server, load and compact."""
