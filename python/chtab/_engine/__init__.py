"""What builds the hierarchy of a network, the program, and what answers, the library for C in this
process. Each module says what it holds."""
