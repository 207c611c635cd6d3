"""What is changed in the text of an LLVM module that was made for x86-64, so that clang compiles it
for WebAssembly with a memory of 64 bits. No function's body is changed."""
import re

LAYOUT = "e-m:e-p:64:64-p10:8:8-p20:8:8-i64:64-i128:128-n32:64-S128-ni:1:10:20"
TRIPLE = "wasm64-unknown-unknown"
ENTRY = "program_main"
OF_X86 = re.compile(
    r'"(?:probe-stack|stack-probe-size|target-cpu|target-features|tune-cpu)"="[^"]*" ?'
)
# A function that the module calls and doesn't have. LLVM's own and the heap's aren't imported.
DECLARED = re.compile(
    r"^(declare .*@(?!llvm\.|rattle_(?:alloc|realloc|dealloc)\()(\w+)\(.*\))[^)\n]*$", re.M
)
GROUP = re.compile(r"^attributes #(\d+) =", re.M)


class RetargetError(Exception):
    """The module lacks what is to be changed."""


def replaced(text: str, pattern: str, by: str) -> str:
    """The text with the one line that fits the pattern replaced."""
    changed, count = re.subn(pattern, by, text, flags=re.M)
    if count != 1:
        raise RetargetError(f"the module has {count} lines {pattern}")
    return changed


def retargeted(text: str) -> str:
    """The module's text for WebAssembly: another triple and layout, no attributes of x86-64, `main`
    exported as `program_main`, and each function of C an import from `host`."""
    text = replaced(text, r"^target datalayout = .*$", f'target datalayout = "{LAYOUT}"')
    text = replaced(text, r"^target triple = .*$", f'target triple = "{TRIPLE}"')
    text = OF_X86.sub("", text)
    number = max(map(int, GROUP.findall(text)), default=0) + 1
    entry = f"define i32 @{ENTRY}() #{number} {{"
    text = replaced(text, r"^define i32 @main\(\)(?: #\d+)? \{$", entry)
    groups = [f'attributes #{number} = {{ nounwind "wasm-export-name"="{ENTRY}" }}']
    return imported(text, groups, number + 1)


def imported(text: str, groups: list[str], first: int) -> str:
    """The text with each declared function of C imported. `groups` are the attributes so far."""

    def with_attributes(match: "re.Match[str]") -> str:
        number = first + len(groups)
        groups.append(
            f'attributes #{number} = {{ nobuiltin nounwind "wasm-import-module"="host"'
            f' "wasm-import-name"="{match[2]}" }}'
        )
        return f"{match[1]} #{number}"

    text = DECLARED.sub(with_attributes, text)
    return f"{text}\n" + "\n".join(groups) + "\n"
