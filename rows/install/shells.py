"""Tests of completions: what each shell offers for a line that is being written."""

import os
import pty
import select
import shutil
import subprocess
import tempfile
import time
from pathlib import Path

from place import Lacking, cases, commands, run


def lines():
    """Lines, each with what is to be offered for its last word."""
    return {
        "wst conv": ["convert"],
        "wst ": [*commands(), "help"],
        "wst help ses": ["session"],
        "wst judge --e": ["--expect", "--explain"],
        "wst show --role s": ["server"],
        "wst test --expect p": ["protocol"],
        "wst show --from ": ["client", "server"],
        "wst test ": ["own", "tung"],
        "wst send --capture t": ["tung"],
        "wst test --key 00000000 t": ["tung"],
        "wst test own 7.7.1": cases("7.7.1*"),
        "wst test own 1.1.1 --key 00000000 --explain 5.": cases("5.*"),
        "wst cases x.": cases("x.*"),
        "wst cases 6.2": cases("6.2*"),
        "wst test --key ": [],
        "wst serve 127.0.0.1:9001 ": [],
        "wst test nowhere own": [],
        "wst cases y": [],
    }


def bash_offers(prefix):
    """By its own function, called as bash calls it."""
    script = 'source "$1"; COMP_WORDS=("${@:2}"); COMP_CWORD=$(($# - 2)); _wst wst; printf "%s\\n" "${COMPREPLY[@]}"'
    file = str(prefix / "share/bash-completion/completions/wst")
    more = {"wst show --role = c": ["client"], "wst show --role =": ["client", "server"]}
    for line, wanted in {**lines(), **more}.items():
        status, out, faults = run("bash", "--norc", "-c", script, "bash", file, *words_of(line))
        assert (status, faults, out.split()) == (0, "", wanted), (line, status, faults, out, wanted)


def words_of(line):
    """The words of a line, the last of which may be empty."""
    return [*line.split(), *([""] if line.endswith(" ") else [])]


def fish_offers(prefix):
    file = prefix / "share/fish/vendor_completions.d/wst.fish"
    wanted = {**lines(), "wst show --role=c": ["--role=client"]}
    script = f"source {file}; for line in $argv; complete -C $line | string replace -r '\\t.*' ''; echo --end; end"
    with tempfile.TemporaryDirectory() as home:
        status, out, faults = run("fish", "--no-config", "-c", script, *wanted, HOME=home)
    assert (status, faults) == (0, ""), (status, faults)
    for (line, names), offered in zip(wanted.items(), out.split("--end\n"), strict=False):
        assert offered.split() == names, (line, offered, names)


# A shell that notes in a file what its completion adds, and `--end` at each Control-X.
NOTING = """PS1= RPS1=
fpath=("$COMPLETIONS" $fpath)
autoload -Uz compinit && compinit -D -u
zstyle ':completion:*' insert-tab false
unsetopt auto_list auto_menu
compadd() {
    if [[ ${@[1,(i)(-|--)]} == *-(O|A|D)\\ * ]]; then
        builtin compadd "$@"
        return
    fi
    local -a hits
    builtin compadd -O hits "$@"
    print -rl -- $hits >>"$NOTES"
    builtin compadd "$@"
}
note-end() { print -- --end >>"$NOTES"; zle kill-whole-line }
zle -N note-end
bindkey -e
bindkey '^X' note-end
print ready >>"$NOTES"
"""


def zsh_offers(prefix):
    """At a terminal, by the key Tab."""
    if shutil.which("zsh") is None:
        raise Lacking("zsh")
    wanted = {**lines(), "wst show --role=c": ["client"]}
    with tempfile.TemporaryDirectory() as home:
        notes = Path(home) / "notes"
        (Path(home) / ".zshrc").write_text(NOTING)
        typed = "".join(f"{line}\t\x18" for line in wanted)
        places = {"COMPLETIONS": str(prefix / "share/zsh/site-functions"), "NOTES": str(notes), "ZDOTDIR": home}
        told = at_terminal(["zsh", "-i"], typed, notes, len(wanted), **places)
    for (line, names), offered in zip(wanted.items(), told.split("--end\n"), strict=False):
        assert sorted(offered.split()) == sorted(names), (line, offered, names)  # in zsh's own order


def at_terminal(words, typed, notes, ends, **variables):
    """Runs a shell at a terminal of its own, types once it is ready, and gives its notes with so many ends."""
    try:
        ours, its = pty.openpty()
    except OSError:
        raise Lacking("terminal") from None
    env = {**os.environ, "TERM": "dumb", "LC_ALL": "C.UTF-8", **variables}
    shell = subprocess.Popen(words, stdin=its, stdout=its, stderr=its, env=env, start_new_session=True)
    os.close(its)
    try:
        wait_for(ours, lambda: notes.exists() and "ready\n" in notes.read_text())
        os.write(ours, typed.encode())
        wait_for(ours, lambda: notes.read_text().count("--end\n") == ends)
        return notes.read_text().partition("ready\n")[2]
    finally:
        shell.kill()
        shell.wait()
        os.close(ours)


def wait_for(terminal, is_done):
    """Reads what the terminal shows until this is so."""
    until = time.monotonic() + 20
    while not is_done():
        assert time.monotonic() < until, "the shell does not answer"
        if select.select([terminal], [], [], 0.02)[0]:
            os.read(terminal, 65536)


TESTS = [bash_offers, zsh_offers, fish_offers]
