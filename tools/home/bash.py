"""The completion for bash."""

HEAD = """# shellcheck shell=bash
# Completion of wst {version} for bash: commands, options, words of TARGET and IDs of cases.

# The words that may stand at a place: `commands`, 'COMMAND options', 'COMMAND OPTION' for the value of an option,
# 'COMMAND N' for the word N of the command; 'COMMAND valued' are its options that have a value.
_wst_words() {{
    local cases='{cases}'
    case $1 in
"""
TAIL = """    esac
}

_wst() {
    local word=${COMP_WORDS[COMP_CWORD]} command='' option='' place=1 at each words
    for ((at = 1; at < COMP_CWORD; at++)); do
        each=${COMP_WORDS[at]}
        if [[ $option ]]; then
            [[ $each == '=' ]] || option=''
        elif [[ $each == *['<>']* ]]; then
            option=$each
        elif [[ $each == -* ]]; then
            [[ " $(_wst_words "$command valued") " != *" $each "* ]] || option=$each
        elif [[ ! $command ]]; then
            command=$each
        else
            place=$((place + 1))
        fi
    done
    [[ $word != '=' ]] || word=''
    if [[ $option ]]; then
        words=$(_wst_words "$command $option")
        [[ $option != *['<>']* ]] || compopt -o default
    elif [[ $word == -* ]]; then
        words=$(_wst_words "$command options")
    elif [[ ! $command ]]; then
        words=$(_wst_words commands)
    else
        words=$(_wst_words "$command $place")
    fi
    # shellcheck disable=SC2207 # (the words have no spaces)
    COMPREPLY=($(compgen -W "$words" -- "$word"))
}

complete -F _wst wst
"""

# The words of a place where IDs of cases stand.
CASES = "CASES"


def bash_completion(program):
    parts = [HEAD.format(version=program.version, cases=" ".join(program.cases))]
    names = " ".join(command.name for command in program.commands)
    parts += [row("commands", f"{names} help"), row("help 1", names)]
    parts += [row(" options", " ".join(names_of(program.whole.options)))]
    for command in program.commands:
        parts += [row(f"{command.name} {key}", words) for key, words in places_of(command) if words]
    return "".join(parts) + TAIL


def row(key, words):
    """A place and its words. `COMMAND N` stands for each place of the command that has no row above."""
    front = key.removesuffix("N")
    pattern = f"'{key}'" if front == key else f"'{front}'[0-9]*"
    told = '"$cases"' if words is CASES else f"'{words}'"
    return f"    {pattern}) echo {told} ;;\n"


def places_of(command):
    """The places of a command with their words."""
    yield "options", " ".join(names_of(command.options))
    yield "valued", " ".join(option.name for option in command.options if option.value)
    for option in command.options:
        yield option.name, " ".join(option.words)
    for place, argument in enumerate(command.arguments, 1):
        yield "N" if argument.is_many else f"{place}", CASES if argument.takes_case else " ".join(argument.words)


def names_of(options):
    return [name for option in options for name in (option.short, option.name) if name]
