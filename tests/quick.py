"""Which tests `bash .ci/run --quick` runs, by module or by class: they show most in little time.
What takes a few seconds of the processor may be named here too."""

QUICK = {
    "explore": [
        *("test_scripts", "test_start", "test_prompt", "test_assembler", "test_breakpoints"),
        *("test_bank", "test_dumps", "test_made_of", "test_screen", "test_sequences"),
        *("test_texts", "test_turn_flow", "test_unnoticed.Fewer"),
    ],
    "package": ["test_answers", "test_edits", "test_machine_programs"],
    "web": ["test_sources", "test_units", "test_types.Types.test_the_types_are_right"]
    + ["test_story.Said", "test_story.Happened"],
}
