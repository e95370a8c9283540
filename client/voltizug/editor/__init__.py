"""A language server over the rows of `work`."""
