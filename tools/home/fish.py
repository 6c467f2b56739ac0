"""The completion for fish."""

HEAD = """# Completion of wst {version} for fish: commands, options, words of TARGET and IDs of cases.

# Tells the command before the cursor, and how many of its words stand there, options and their values not counted; `0`
# alone where there is no command.
function __wst_place
    set -l command
    set -l count 0
    set -l is_value 0
    for word in (commandline -opc)[2..]
        if test $is_value = 1
            set is_value 0
        else if string match -q -- '-*' $word
            contains -- "$command $word" {valued}
            and set is_value 1
        else if not set -q command[1]
            set command $word
        else
            set count (math $count + 1)
        end
    end
    echo $command $count
end

complete -c wst -f
"""


def fish_completion(program):
    options = [(command, option) for command in program.commands for option in command.options]
    valued = " ".join(quoted(f"{command.name} {option.name}") for command, option in options if option.value)
    names = " ".join(command.name for command in program.commands)
    lines = [HEAD.format(version=program.version, valued=valued)]
    lines += [line("0", named(option), option.help) for option in program.whole.options]
    # Of lines that keep their order the last one is shown first.
    lines += [line("help 0", f"-k -a {quoted(names)}", ""), line("0", "-k -a help", "Print the help of a command")]
    lines += [line("0", f"-k -a {command.name}", command.about) for command in reversed(program.commands)]
    for command, option in options:
        lines.append(line(f"{command.name} [0-9]+", named(option), option.help))
    for command in program.commands:
        lines += words_of(command, program.cases)
    return "".join(lines)


def words_of(command, cases):
    """The words of a command that are known."""
    for place, argument in enumerate(command.arguments):
        words = cases if argument.takes_case else argument.words
        before = "|".join(map(str, range(place)))
        where = f"(?!(?:{before})$)[0-9]+" if argument.is_many else str(place)
        if words:
            yield line(f"{command.name} {where}", f"-k -a {quoted(' '.join(words))}", "")


def line(place, what, help):
    """What may stand at a place, a pattern of what `__wst_place` tells."""
    condition = f"string match -qr {quoted(f'^{place}$')} (__wst_place)"
    about = f" -d {quoted(help.replace('`', ''))}" if help else ""
    return f"complete -c wst -n {quoted(condition)} {what}{about}\n"


def named(option):
    """An option by its names, with what its value may be."""
    short = f"-s {option.short.removeprefix('-')} " if option.short else ""
    value = f" -x -a {quoted(' '.join(option.words))}" if option.words else " -x" if option.value else ""
    return f"{short}-l {option.name.removeprefix('--')}{value}"


def quoted(text):
    escaped = text.replace("\\", "\\\\").replace("'", "\\'")
    return f"'{escaped}'"
