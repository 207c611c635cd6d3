"""Tests of the WebAssembly modules, of how they are made, and of how the page is packed."""
