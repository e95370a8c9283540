"""The page in a browser, and the report for a pull request, over the rows of the program."""
