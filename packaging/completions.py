"""Completions of the command line for bash, zsh and fish, made from the one list of options."""
from options import COMMANDS, OPTIONS

HELP_COMMAND = ("help", "Print this message or the help of the given subcommand(s)")


def listed():
    """Each subcommand with what it is for."""
    return [*((command.name, command.help) for command in COMMANDS), HELP_COMMAND]


def words(options):
    return " ".join(f"--{option.name}" for option in options)


BASH = """\
# Completion of jsp for bash.
_jsp() {{
    local word=${{COMP_WORDS[COMP_CWORD]}} before=${{COMP_WORDS[COMP_CWORD - 1]}} words=
    if [ "$COMP_CWORD" = 1 ]; then
        words='{first}'
    else
        case ${{COMP_WORDS[1]}} in
{cases}
        esac
        # A value is for the user to say.
        case $before in
            {valued}) words= ;;
        esac
    fi
    mapfile -t COMPREPLY < <(compgen -W "$words" -- "$word")
}}
complete -F _jsp jsp
"""


def bash():
    names = [name for name, _ in listed()]
    told = [(command.name, words(command.options)) for command in COMMANDS]
    told.append(("help", " ".join(command.name for command in COMMANDS)))
    valued = {option.name for command in COMMANDS for option in command.options if option.value}
    return BASH.format(
        first=" ".join([*names, words(OPTIONS)]),
        cases="\n".join(f"            {name}) words='{choices}' ;;" for name, choices in told),
        valued=" | ".join(f"--{name}" for name in sorted(valued)),
    )


def quoted(text):
    """For a shell, in single quotes."""
    return "'" + text.replace("'", "'\\''") + "'"


ZSH = """\
#compdef jsp
# Completion of jsp for zsh.
_jsp() {{
    local context state state_descr line
    typeset -A opt_args
    _arguments -C \\
{options}
        '1:command:->command' \\
        '*::argument:->argument'
    case $state in
        command)
            local -a commands=(
{commands}
            )
            _describe command commands
            ;;
        argument)
            case $words[1] in
{cases}
                help) _values command {names} ;;
            esac
            ;;
    esac
}}
_jsp "$@"
"""


def zsh_option(option):
    """An option for `_arguments`. Its help stands in brackets, within which a bracket or colon has a backslash."""
    text = option.help.replace("[", r"\[").replace("]", r"\]").replace(":", r"\:")
    if option in OPTIONS:
        forms = f"{{-{option.letter},--{option.name}}}"
        return f"'(- *)'{forms}{quoted(f'[{text}]')}"
    return quoted(f"--{option.name}[{text}]" + (f":{option.value}:" if option.value else ""))


def zsh_case(command):
    lines = [f"{' ' * 20}{zsh_option(option)} \\" for option in command.options]
    return "\n".join([f"{' ' * 16}{command.name}) _arguments \\", *lines, f"{' ' * 20}'*:argument:' ;;"])


def zsh():
    return ZSH.format(
        options="\n".join(f"        {zsh_option(option)} \\" for option in OPTIONS),
        commands="\n".join(f"{' ' * 16}{quoted(f'{name}:{text}')}" for name, text in listed()),
        cases="\n".join(map(zsh_case, COMMANDS)),
        names=" ".join(command.name for command in COMMANDS),
    )


def fish_option(option, condition):
    letter = f" -s {option.letter}" if option.letter else ""
    value = " -x" if option.value else ""
    return f"complete -c jsp -n {condition}{letter} -l {option.name}{value} -d {fish_quoted(option.help)}"


def fish_quoted(text):
    """For fish, which knows a backslash within single quotes."""
    return "'" + text.replace("\\", "\\\\").replace("'", "\\'") + "'"


def fish():
    lines = ["# Completion of jsp for fish.", "complete -c jsp -f"]
    lines += [fish_option(option, "__fish_use_subcommand") for option in OPTIONS]
    for name, text in listed():
        lines.append(f"complete -c jsp -n __fish_use_subcommand -a {name} -d {fish_quoted(text)}")
    for command in COMMANDS:
        condition = f"'__fish_seen_subcommand_from {command.name}'"
        lines += [fish_option(option, condition) for option in command.options]
    return "\n".join(lines) + "\n"
