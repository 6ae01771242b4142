"""The interface of OSRM over HTTP, version 1, by its public description. docs/SERVICE.md compares
the two option by option."""
