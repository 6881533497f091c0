"""The parts that tests/deploy.py plays, built like those in parts/."""
