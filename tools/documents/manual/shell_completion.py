"""What completes a program's options and files in a shell. A session is a file that ends in
.session; each other file is an option's."""
import textwrap
from typing import Callable

from .tables import Option, Program

WIDTH = 80
FILES = ("FILE", "FOLDER")  # the values that are paths
HEAD = "# Made by tools/make manual: completes the options and files of {name}."
BASH = """\
{head}
{function}() {{
    local options='{options}'
    local word=${{COMP_WORDS[COMP_CWORD]}} before=${{COMP_WORDS[COMP_CWORD - 1]}} IFS=$'\\n'
    if [[ $word == = ]]; then
        word=
    elif [[ $before == = ]]; then
        before=${{COMP_WORDS[COMP_CWORD - 2]}}
    fi
    case $before in
{of_files}{of_others}    *)
        if [[ $word == -* ]]; then
            COMPREPLY=($(compgen -W "$options" -- "$word"))
        else
            COMPREPLY=({rest})
        fi
        ;;
    esac
}}
complete -o filenames -F {function} {name}{here}
"""
BASH_SESSIONS = """$(compgen -f -X '!*.session' -- "$word"; compgen -d -- "$word")"""


def names_of(option: Option) -> list[str]:
    return [it for it in (option.short, option.name) if it]


def head(program: Program) -> str:
    return HEAD.format(name=program.name)


def pattern(names: list[str]) -> str:
    """A pattern of bash that is each of these names."""
    return textwrap.fill(" | ".join(names), WIDTH).replace("\n", " \\\n        ")


def arm(names: list[str], reply: str) -> str:
    """What is replied behind one of these names."""
    return f"    {pattern(names)})\n        COMPREPLY=({reply})\n        ;;\n" if names else ""


def bash(program: Program) -> str:
    """A function of bash, which takes no package beside it."""

    def names(are_wanted: Callable[[Option], bool]) -> list[str]:
        return [name for it in program.options if are_wanted(it) for name in names_of(it)]

    return BASH.format(
        head=head(program),
        function=f"_{program.name.replace('-', '_')}",
        of_files=arm(names(lambda it: it.value in FILES), '$(compgen -f -- "$word")'),
        of_others=arm(names(lambda it: it.value not in ("", *FILES)), ""),
        options="\n".join(names(lambda it: True)),
        rest=BASH_SESSIONS if program.takes_session else "",
        name=program.name,
        here=program.here and f" ./{program.here}",
    )


def in_quotes(text: str) -> str:
    """A text between the single quotes of zsh."""
    return text.replace("'", "'\\''")


def zsh_option(option: Option) -> str:
    """An option as _arguments takes it. In its text brackets and colons are marks."""
    text = option.summary
    for mark in "\\[]:":
        text = text.replace(mark, f"\\{mark}")
    after = value = ""
    if option.value:
        after, colons = ("=", ":") if option.is_value_needed else ("", "::")
        value = f"{colons}{option.value}:{'_files' if option.value in FILES else ' '}"
    said = in_quotes(f"[{text}]{value}")
    if not option.short:
        return f"'{option.name}{after}{said}'"
    return f"'({option.short} {option.name})'{{{option.short},{option.name}{after}}}'{said}'"


def zsh(program: Program) -> str:
    """A file for a folder of zsh's fpath, where its name is _NAME."""
    parts = [zsh_option(it) for it in program.options]
    if program.takes_session:
        parts.append("'1:SESSION:_files -g \"*.session\"'")
    listed = " \\\n".join(f"  {it}" for it in parts)
    return f"#compdef {program.name}\n{head(program)}\n_arguments \\\n{listed}\n"


def fish_option(program: Program, option: Option) -> str:
    text = option.summary.replace("\\", "\\\\").replace("'", "\\'")
    short = f" -s {option.short.lstrip('-')}" if option.short else ""
    files = " -F" if option.value in FILES else ""
    needs = ""
    if option.value and option.is_value_needed:
        needs = " -r" if files else " -x"  # -x: no file
    name = option.name.lstrip("-")
    return f"complete -c {program.name}{short} -l {name}{needs}{files} -d '{text}'"


def fish(program: Program) -> str:
    """A file for a folder of fish's completions."""
    lines = [head(program), f"complete -c {program.name} -f"]
    lines += [fish_option(program, it) for it in program.options]
    if program.takes_session:
        lines.append(f"complete -c {program.name} -k -a '(__fish_complete_suffix .session)'")
    return "".join(f"{it}\n" for it in lines)


SHELLS: dict[str, Callable[[Program], str]] = {"bash": bash, "zsh": zsh, "fish": fish}
