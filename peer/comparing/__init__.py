"""The parts of peer/compare."""
