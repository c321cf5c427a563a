"""The tests of the page, by parts."""
