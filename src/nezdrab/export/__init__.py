"""Files that are written for others: SIMH, GTKWave, KCachegrind, flame graphs, lcov, the page. It
stands on analysis."""
