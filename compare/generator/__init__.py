"""What is given to the program and to the model alike: random modules and files, and limits.

Everything is drawn from one `random.Random`, so a seed gives the same again.
"""
