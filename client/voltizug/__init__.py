"""The client of the rows of `work`, which the faces share: a terminal, a page, an editor. Python 3.9, standard library only."""
