"""The tests of the tools, which tools/test runs with those of the package and of the studies."""
