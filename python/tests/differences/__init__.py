"""The tests of tigercanon-tools diff, with counties that are changed at known places."""
