"""The parts of tools/job."""
