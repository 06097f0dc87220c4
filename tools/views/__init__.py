"""What the pass did with a function: what tools/view.py is made of."""
