"""Builds the page: the proved program as a module of WebAssembly, and the files round it."""
