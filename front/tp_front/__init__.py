"""The front of the program tp: all that ./tp answers beside the program's own text."""
