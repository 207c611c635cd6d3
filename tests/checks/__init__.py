"""The checks that the gate runs, by `tools/check` and tests/refuse-each; each module has one, or a
part of one."""
