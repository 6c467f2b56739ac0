"""The completion for zsh."""

import re

HEAD = """#compdef wst
# Completion of wst {version} for zsh: commands, options, words of TARGET and IDs of cases.

_wst_cases() {{
    local -a cases expl
    cases=({cases})
    _wanted -V cases expl case compadd -a cases
}}

_wst_commands() {{
    local -a commands
    commands=(
{commands}
        'help:Print the help of a command'
    )
    _describe -t commands command commands
}}

_wst() {{
    local curcontext=$curcontext state line ret=1
    typeset -A opt_args
    _arguments -C \\
{options}
        '1:command:_wst_commands' \\
        '*::argument:->argument' && ret=0
    [[ $state == argument ]] || return $ret
    curcontext=${{curcontext%:*:*}}:wst-$words[1]:
    case $words[1] in
    help) _arguments '1:command:_wst_commands' ;;
"""
TAIL = """    esac
}

_wst "$@"
"""


def zsh_completion(program):
    commands = "\n".join(f"        {quoted(f'{command.name}:{command.about}')}" for command in program.commands)
    options = "\n".join(f"        {spec} \\" for spec in map(option_spec, program.whole.options))
    head = HEAD.format(version=program.version, cases=" ".join(program.cases), commands=commands, options=options)
    return head + "".join(map(command_case, program.commands)) + TAIL


def command_case(command):
    specs = [*map(option_spec, command.options), *map(argument_spec, command.arguments)]
    calls = " \\\n            ".join(["_arguments", *specs])
    return f"    {command.name})\n        {calls}\n        ;;\n"


def option_spec(option):
    """An option. One that ends a run stands alone; one with a value may be given again, as some may be."""
    help = plainly(option.help)
    if option.value:
        return quoted(f"*{option.name}=[{help}]:{plainly(option.value)}:{action(option)}")
    if option.short:
        return f"'(- *)'{{{option.short},{option.name}}}{quoted(f'[{help}]')}"
    return quoted(f"{option.name}[{help}]")


def argument_spec(argument):
    front = "*" if argument.is_many else ""
    return quoted(f"{front}:{plainly(argument.value)}:{action(argument)}")


def action(argument):
    """What gives the words of an argument."""
    if argument.takes_case:
        return "_wst_cases"
    return f"({' '.join(argument.words)})" if argument.words else " "


def plainly(text):
    """Text as it stands in the parts of a specification, without marks of code."""
    return re.sub(r"[\\\[\]:]", r"\\\g<0>", text.replace("`", ""))


def quoted(text):
    return "'" + text.replace("'", "'\\''") + "'"
