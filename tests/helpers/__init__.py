"""What the tests share: the built program and its runs, files for it, and the count of what passed and failed."""
