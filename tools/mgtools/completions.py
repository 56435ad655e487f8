"""Scripts that complete the words of mg in a shell: its commands, the options that work with a command, and graph files."""
from __future__ import annotations

import re
import shlex

from .help import Help, Option

BASH = r"""# Completes the words of mg in bash. `tools/completions bash` made this of the help of mg.
_mg() {
    local current=${COMP_WORDS[COMP_CWORD]} kind=word command='' given=' ' options='' place name
    COMPREPLY=()
    for ((place = 1; place < COMP_CWORD; place++)); do
        name=${COMP_WORDS[place]}
        case $name in
        *[\<\>]*) ((++place < COMP_CWORD)) || kind=any ;;
        --)
            kind=graph
            break
            ;;
        @VALUED@)
            given+="$name "
            [[ ${COMP_WORDS[place + 1]} == = ]] && ((place++))
            ((++place < COMP_CWORD)) || kind=value
            ;;
        -*) given+="$name " ;;
        @COMMANDS@) command=${command:-$name} ;;
        esac
    done
    # Any file is what bash completes by itself, where nothing else is offered.
    [[ $kind == any ]] && return
    if [[ $kind == word && $current != -* && $command || $kind == graph ]]; then
        mapfile -t COMPREPLY < <(compgen -f -X '!*.pbtxt' -- "$current")
        ((${#COMPREPLY[@]})) && mapfile -t -O ${#COMPREPLY[@]} COMPREPLY < <(compgen -d -- "$current")
        compopt -o filenames 2>/dev/null
        return
    fi
    compopt +o default 2>/dev/null
    [[ $kind == value ]] && return
    [[ $command ]] || options='@WORDS@'
    if [[ $current == -* ]]; then
        case $command in
@OPTIONS@
        esac
    fi
    for name in $options; do
        [[ $name == "$current"* && $given != *" $name "* ]] && COMPREPLY+=("$name")
    done
}
complete -o default -F _mg mg
"""

ZSH = r"""#compdef mg
# Completes the words of mg in zsh. `tools/completions zsh` made this of the help of mg.
_mg() {
    local word command
    local -a commands options
    commands=(
@COMMANDS@
    )
    for word in ${words[2,CURRENT-1]}; do
        [[ -n ${commands[(r)$word:*]} ]] && command=$word && break
    done
@OPTIONS@
    _arguments -S $options '1:command:{_describe command commands}' '*:graph file:_files -g "*.pbtxt(-.)"'
}
# Where the script is a file of the function path, its first call ends here.
if [[ $funcstack[1] == _mg ]]; then
    _mg "$@"
else
    compdef _mg mg
fi
"""


def filled(text: str, **parts: str) -> str:
    for name, part in parts.items():
        text = text.replace(f"@{name}@", part)
    return text


def for_bash(help: Help) -> str:
    """The script for bash."""
    cases = [(command, [option for option in help.options if not option.commands or command in option.commands]) for command in help.commands]
    lines = [f"        {case}) options='{' '.join(option.names[-1] for option in options)}' ;;" for case, options in [*cases, ("*", help.options)]]
    return filled(BASH, VALUED=" | ".join(option.names[-1] for option in help.options if option.value), COMMANDS=" | ".join(help.commands),
                  WORDS=" ".join(help.commands), OPTIONS="\n".join(lines))


def specs(option: Option) -> list[str]:
    """An option as zsh's _arguments reads it, by each of its names."""
    does = re.sub(r"([\\\]])", r"\\\1", option.does)
    others = f"({' '.join(option.names)})" if len(option.names) > 1 else ""
    value = f":{option.value}: " if option.value else ""
    return [shlex.quote(f"{others}{name}{'=' if option.value else ''}[{does}]{value}") for name in option.names]


def for_zsh(help: Help) -> str:
    """The script for zsh."""
    commands = [shlex.quote(f"{name}:{does}") for name, does in help.commands.items()]
    lines = []
    for option in help.options:
        condition = f"[[ -z $command || $command == ({'|'.join(option.commands)}) ]] && " if option.commands else ""
        lines.append(f"    {condition}options+=({' '.join(specs(option))})")
    return filled(ZSH, COMMANDS="\n".join(f"        {command}" for command in commands), OPTIONS="\n".join(lines))


SHELLS = {"bash": for_bash, "zsh": for_zsh}
