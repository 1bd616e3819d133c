"""What bash, zsh and fish complete behind `rekhuso`: its commands, the options of each, and files."""

from __future__ import annotations

import argparse

from .uses import Option, Use, options_in, top, uses

BASH = """# What bash completes behind rekhuso; made of its own options.
_rekhuso() {
    local word=${COMP_WORDS[COMP_CWORD]} before=${COMP_WORDS[COMP_CWORD-1]} command= options= folders= words= at
    for ((at = 1; at < COMP_CWORD; at++)); do
        case ${COMP_WORDS[at]} in
            --program) ((at++)) ;;
            -*|=) ;;
            *) command=${COMP_WORDS[at]}; break ;;
        esac
    done
    COMPREPLY=()
    case $command in
        '') options='%(top)s' ;;
        help) options='%(names)s' ;;
%(commands)s
        *) return ;;
    esac
    case " $folders " in
        *" $before "*) mapfile -t COMPREPLY < <(compgen -d -- "$word"); return ;;
    esac
    case " $words " in
        *" $before "*) return ;;
    esac
    if [[ $before != --program && ( -z $command || $command == help || $word == -* ) ]]; then
        mapfile -t COMPREPLY < <(compgen -W "$options" -- "$word")
    else
        mapfile -t COMPREPLY < <(compgen -f -- "$word")
    fi
}
complete -o filenames -F _rekhuso rekhuso
"""
ZSH = """#compdef rekhuso
# What zsh completes behind rekhuso; made of its own options.
_rekhuso() {
    local curcontext=$curcontext state line
    typeset -A opt_args
    _arguments -C %(top)s '1:command:->command' '*::word:->words'
    case $state in
        command)
            local -a commands=(
%(names)s
            )
            _describe command commands ;;
        words)
            case $words[1] in
%(commands)s
            esac ;;
    esac
}
# A folder of fpath has it as a function; where it is sourced, it is tied to the command.
if [[ $funcstack[1] == _rekhuso ]]; then _rekhuso "$@"; else compdef _rekhuso rekhuso; fi
"""
FISH = """# What fish completes behind rekhuso; made of its own options.
complete -c rekhuso -f -n __fish_use_subcommand -a help -d 'tells the use of a command'
complete -c rekhuso -f -n '__fish_seen_subcommand_from help' -a '%(names)s'
%(lines)s
"""


# What stands behind an option that is the path of a file.
FILES = frozenset(["FILE", "PGS", "OSD_DUMP", "PROGRAM", "SCRIPT", "REPORT"])


def is_folder(option: Option) -> bool:
    """Whether a folder stands behind an option."""
    return option.values == ("FOLDER",)


def is_file(option: Option) -> bool:
    """Whether a file stands behind an option."""
    return any(not FILES.isdisjoint(value.split("|")) for value in option.values)


def words_of(options: list[Option]) -> str:
    """The words of options, sorted."""
    return " ".join(sorted({word for option in options for word in option.words}))


def bash_case(use: Use) -> str:
    """What bash knows of a command: its options, those behind which a folder stands, and those behind which a word does
    that is no path.
    """
    options = options_in(use.parser)
    folders = [own for own in options if is_folder(own)]
    named = [own for own in options if own.values and not is_folder(own) and not is_file(own)]
    return (
        f"        {use.name}) options='{words_of(options)}' folders='{words_of(folders)}' words='{words_of(named)}' ;;"
    )


def bash() -> str:
    """What bash reads."""
    commands = uses()
    names = " ".join(use.name for use in commands)
    return BASH % {
        "top": f"{names} help {words_of(options_in(top()))}",
        "names": names,
        "commands": "\n".join(map(bash_case, commands)),
    }


def quoted(text: str) -> str:
    """A text as zsh takes it between quotes."""
    return text.replace("'", "'\\''")


def told(text: str, signs: str) -> str:
    """A text in which some signs stand for themselves."""
    return "".join(f"\\{sign}" if sign in signs else sign for sign in text)


def zsh_option(option: Option, word: str) -> str:
    """An option as zsh's `_arguments` has it."""
    action = "_files -/" if is_folder(option) else "_files" if is_file(option) else ""
    values = "".join(f":{told(value, ':')}:{action}" for value in option.values)
    return f"'*{word}[{quoted(told(option.about, '[]'))}]{quoted(values)}'"


def zsh_options(own: argparse.ArgumentParser) -> list[str]:
    """All options of a parser."""
    return [zsh_option(option, word) for option in options_in(own) for word in option.words]


def zsh_case(use: Use) -> str:
    """What zsh completes behind a command."""
    lines = " \\\n".join(f"                        {line}" for line in [*zsh_options(use.parser), "'*:file:_files'"])
    return f"                {use.name})\n                    _arguments \\\n{lines} ;;"


def told_names(commands: list[Use]) -> list[tuple[str, str]]:
    """Each command with what it does, and the word for help."""
    return [*((use.name, use.about) for use in commands), ("help", "tells the use of a command")]


def zsh() -> str:
    """What zsh reads."""
    commands = uses()
    return ZSH % {
        "top": " ".join(zsh_options(top())),
        "names": "\n".join(f"                '{name}:{quoted(about)}'" for name, about in told_names(commands)),
        "commands": "\n".join(map(zsh_case, commands)),
    }


def fish_quoted(text: str) -> str:
    """A text between fish's quotes."""
    return "'" + text.replace("\\", "\\\\").replace("'", "\\'") + "'"


def fish_option(option: Option, condition: str) -> str:
    """An option as fish's `complete` has it: behind one without a value come others, behind one with a value a file, a
    folder or nothing.
    """
    names = [f"-l {word[2:]}" if word.startswith("--") else f"-s {word[1:]}" for word in option.words]
    folder = " -x -a '(__fish_complete_directories)'" if is_folder(option) else ""
    value = "" if not option.values else folder or (" -r -F" if is_file(option) else " -x")
    return f"complete -c rekhuso -n {condition} {' '.join(names)}{value} -d {fish_quoted(option.about)}"


def fish() -> str:
    """What fish reads."""
    lines, commands = [fish_option(option, "__fish_use_subcommand") for option in options_in(top())], uses()
    for use in commands:
        lines.append(f"complete -c rekhuso -f -n __fish_use_subcommand -a {use.name} -d {fish_quoted(use.about)}")
        condition = f"'__fish_seen_subcommand_from {use.name}'"
        lines += [fish_option(option, condition) for option in options_in(use.parser)]
    return FISH % {"names": " ".join(use.name for use in commands), "lines": "\n".join(lines)}
