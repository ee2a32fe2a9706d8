"""Questions to the program `distac` or to the models: generated scripts, and their output."""
