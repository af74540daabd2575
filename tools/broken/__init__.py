"""The parts of broken_files.py."""
