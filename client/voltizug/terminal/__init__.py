"""`work` at a terminal: lines are read, commands are answered, and changes are shown."""
