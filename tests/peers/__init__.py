"""Tests of tests/figures/peers: that its network loses what its seed says, that its percentiles and rows are right, and that members of each kind draw."""
