"""What `chtab.files` is made of: a module for each kind of file, columns of callers, and what is
refused of them."""
