"""What `tools/make` makes of documents and for them: the one page of README and docs/, the list of
definitions, and the manual pages."""
