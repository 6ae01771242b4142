"""The targets near each source, and sums over them. Each module says what it holds."""
