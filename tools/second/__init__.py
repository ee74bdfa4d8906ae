"""A second program for the commands of np, written from docs/proof/THEOREM.txt and examples/ alone; see program.py."""
