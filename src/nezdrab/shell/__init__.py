"""explore: a prompt over the session language, with commands that people know from debuggers. It
stands on core, analysis and export. The session language and its replies: docs/LANGUAGE.md.
`./explore --help` lists the options."""
