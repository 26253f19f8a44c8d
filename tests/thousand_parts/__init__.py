"""The parts of tests/thousand.py: the proxies, an origin, clients, and the scenes."""
