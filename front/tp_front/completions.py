"""What bash and zsh complete words of ./tp to."""

from __future__ import annotations

from tp_front.table import Command, Option, Table


def bash(table: Table) -> str:
    """The completion of bash."""
    flags = "\n".join(f"        {it.name}) flags='{_flags(it)}' ;;" for it in table.commands)
    values = "\n".join(
        f"        {it.flag}) words='{' '.join(it.words)}' ;;" for it in table.options if it.words
    )
    names = " ".join([*(it.name for it in table.commands), *own_words(table)])
    readers = "|".join(it.name for it in table.commands if it.reads)
    return f"""# bash completion of tp, made of front/words.toml
_tp()
{{
    local word=${{COMP_WORDS[COMP_CWORD]}} last=${{COMP_WORDS[COMP_CWORD - 1]}} command=${{COMP_WORDS[1]}}
    local flags='' words=''
    COMPREPLY=()
    if [ "$COMP_CWORD" -eq 1 ]; then
        COMPREPLY=($(compgen -W '{names}' -- "$word"))
        return
    fi
    case $command in
{flags}
        --help | help) flags='{" ".join(it.name for it in table.commands)}' ;;
        --certificate) flags='--check' ;;
    esac
    case $last in
{values}
        --check) COMPREPLY=($(compgen -f -- "$word")) && return ;;
    esac
    case $last in
        {"|".join(it.flag for it in table.options)}) COMPREPLY=($(compgen -W "$words" -- "$word")) ;;
        *)
            COMPREPLY=($(compgen -W "$flags" -- "$word"))
            case $command in {readers}) COMPREPLY+=($(compgen -f -- "$word")) ;; esac
            ;;
    esac
}}
complete -o filenames -F _tp tp ./tp
"""


def zsh(table: Table) -> str:
    """The completion of zsh."""
    commands = "\n".join(f"        {_quoted(f'{it.name}:{it.what}')}" for it in table.commands)
    own = " ".join(own_words(table))
    cases = "\n".join(_zsh_case(it) for it in table.commands)
    return f"""#compdef tp

# zsh completion of tp, made of front/words.toml
_tp() {{
    local -a commands
    commands=(
{commands}
    )
    if (( CURRENT == 2 )); then
        _describe command commands
        compadd -- {own}
        return
    fi
    local command=$words[2]
    shift words
    (( CURRENT-- ))
    case $command in
{cases}
        --help|help) _describe command commands ;;
        --certificate) _arguments '--check[says what differs]:file:_files' ;;
    esac
}}

_tp "$@"
"""


def own_words(table: Table) -> list[str]:
    """The front's own words, each once."""
    return list(dict.fromkeys(row.name.split()[0] for row in table.own))


def _flags(command: Command) -> str:
    return " ".join(option.flag for option in command.options)


def _zsh_case(command: Command) -> str:
    arguments = [_quoted(_zsh_option(option)) for option in command.options]
    if command.reads:
        arguments.append("'*:image:_files'")
    return f"        {command.name}) {'_arguments ' + ' '.join(arguments) if arguments else ':'} ;;"


def _zsh_option(option: Option) -> str:
    values = f"({' '.join(option.words)})" if option.words else " "
    return f"{option.flag}[{option.what}]:{option.value}:{values}"


def _quoted(text: str) -> str:
    return "'" + text.replace("'", "'\\''") + "'"
