"""Independent programs that say what `chtab` owes. They share no code with it: neither is made from the other's sources."""
