"""The tests of the program of these sources. `./pgserial test` runs them; so does unittest, by their names."""
