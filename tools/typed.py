#!/usr/bin/env python3
"""Types a line in an interactive shell, and prints the words that a command was then given, a line each.

    tools/typed.py bash|zsh|fish COMMAND KEYS

The shell runs in the current folder, with the completions of completion/ and without anybody's own settings. COMMAND (np or
kubectl-np) is a function there that keeps its words. KEYS are typed as they stand, but for \\t, which is the key that completes; the line
ends by itself. Words that a shell completed it has quoted in its own way, so what is compared is what it makes of them.
"""
import os
import pty
import select
import signal
import sys
import tempfile
import time

ROOT = os.path.dirname(os.path.dirname(os.path.realpath(__file__)))
PROMPT = "ready> "
SECONDS = 60

BASH = """PS1='{prompt}'
bind 'set enable-bracketed-paste off'
. '{root}/completion/np.bash'
{command}() {{ printf '%s\\n' "$@" >'{room}/words.new'; mv '{room}/words.new' '{room}/words'; }}
"""
ZSH = """PS1='{prompt}'
unset zle_bracketed_paste
fpath=('{root}/completion' $fpath)
autoload -U compinit
compinit -u -d '{room}/dump'
{command}() {{ printf '%s\\n' "$@" >'{room}/words.new'; mv '{room}/words.new' '{room}/words'; }}
"""
FISH = """function fish_prompt; printf '%s' '{prompt}'; end
function fish_greeting; end
source '{root}/completion/np.fish'
function {command}; printf '%s\\n' $argv >'{room}/words.new'; mv '{room}/words.new' '{room}/words'; end
"""
# How each shell is started: its file of settings in the room, what stands there, and its words.
SHELLS = {
    "bash": ("bashrc", BASH, ["bash", "--noprofile", "--rcfile", "{room}/bashrc", "-i"]),
    "zsh": (".zshrc", ZSH, ["zsh", "-d", "-i"]),
    "fish": ("fish/config.fish", FISH, ["fish", "-i"]),
}


def prepare(shell, command, room):
    """Writes the settings of the shell, and gives its words."""
    place, text, words = SHELLS[shell]
    path = os.path.join(room, place)
    os.makedirs(os.path.dirname(path), exist_ok=True)
    with open(path, "w", encoding="utf-8") as file:
        file.write(text.format(prompt=PROMPT, root=ROOT, room=room, command=command))
    return [word.format(room=room) for word in words]


def start(words, room):
    """The shell's process and its terminal."""
    child, terminal = pty.fork()
    if child == 0:
        os.environ.update(HOME=room, ZDOTDIR=room, XDG_CONFIG_HOME=room, XDG_DATA_HOME=room, TERM="xterm")
        os.execvp(words[0], words)
    return child, terminal


def read_until(terminal, is_enough):
    """Reads what the shell writes until that suffices, or the time is over."""
    text, end = b"", time.monotonic() + SECONDS
    while not is_enough(text) and time.monotonic() < end:
        if select.select([terminal], [], [], 0.05)[0]:
            try:
                text += os.read(terminal, 65536)
            except OSError:
                break
    return text


def typed_words(shell, command, keys, room):
    """What the command was given, or what the terminal showed where it was not run."""
    child, terminal = start(prepare(shell, command, room), room)
    result = os.path.join(room, "words")
    shown = read_until(terminal, lambda text: PROMPT.encode() in text)
    for key in keys.replace("\\t", "\t").replace("\t", "\t\0").split("\0"):
        os.write(terminal, key.encode())
    os.write(terminal, b"\r")
    shown += read_until(terminal, lambda text: os.path.exists(result))
    os.killpg(child, signal.SIGKILL)
    os.waitpid(child, 0)
    if not os.path.exists(result):
        return "nothing was run; the terminal showed\n" + shown.decode("utf-8", "replace") + "\n"
    with open(result, encoding="utf-8") as file:
        return file.read()


def main(shell, command, keys):
    # What a shell began in the background may still write there while the room is cleared.
    with tempfile.TemporaryDirectory(ignore_cleanup_errors=True) as room:
        sys.stdout.write(typed_words(shell, command, keys, room))


if __name__ == "__main__":
    if len(sys.argv) != 4 or sys.argv[1] not in SHELLS:
        sys.exit("usage: tools/typed.py bash|zsh|fish COMMAND KEYS")
    main(*sys.argv[1:])
