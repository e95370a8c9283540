"""The completions of snowbench for bash, zsh and fish."""
from typing import Iterable, List

from definition import Command, Definition

MADE = "# Completions of snowbench for %s. Made by tools/completions from tools/commands.txt: change that.\n"


def quoted(text: str) -> str:
    """Returns a text as one word of a shell."""
    return "'%s'" % text.replace("'", "'\\''")


def escaped(text: str, characters: str) -> str:
    return "".join("\\" + character if character in characters else character for character in text)


def takes_files(command: Command) -> bool:
    """Whether a file can come after the command: one that it takes, or one that is its standard input."""
    return bool(command.files) or any("<" in use for use in command.uses)


def names(commands: Iterable[Command]) -> List[str]:
    return [command.name for command in commands]


def bash(definition: Definition) -> str:
    """Returns the completions for bash. They need nothing of the package bash-completion."""
    commands = definition.installed()
    cases = "".join(
        "    %s) options=%s ;;\n" % (command.name, quoted(" ".join([option.name for option in command.options] + ["--help"])))
        for command in commands
        if command.kind == "program"
    )
    with_files = "|".join(command.name for command in commands if takes_files(command))
    return MADE % "bash" + """\
_snowbench() {
  local word=${COMP_WORDS[COMP_CWORD]} before=${COMP_WORDS[COMP_CWORD-1]} command=${COMP_WORDS[1]} options=""
  COMPREPLY=()
  if [ "$COMP_CWORD" -eq 1 ] || { [ "$COMP_CWORD" -eq 2 ] && [ "$command" = help ]; }; then
    mapfile -t COMPREPLY < <(compgen -W %s -- "$word")
    return
  fi
  case $command in
%s  esac
  case $before:$word in
    --external:*) ;;
    *:-*) mapfile -t COMPREPLY < <(compgen -W "$options" -- "$word") ;;
    *) case $command in %s) mapfile -t COMPREPLY < <(compgen -f -- "$word") ;; esac ;;
  esac
}
complete -o filenames -F _snowbench snowbench
""" % (quoted(" ".join(names(commands))), cases, with_files)


def zsh_arguments(command: Command) -> str:
    """Returns what `_arguments` of zsh is to know of a command."""
    words = []
    for option in command.options:
        text = "[%s]" % escaped(option.text, "[]\\")
        words.append(quoted("%s=%s:%s: " % (option.name, text, option.value) if option.value else option.name + text))
    words.append(quoted("--help[show what %s takes]" % command.name))
    for number, (name, _) in enumerate(command.files, 1):
        words.append(quoted("%d:%s:_files" % (number, name)))
    return " ".join(words)


def zsh(definition: Definition) -> str:
    """Returns the completions for zsh."""
    commands = definition.installed()
    listed = "".join("    %s\n" % quoted("%s:%s" % (command.name, escaped(command.does, ":\\"))) for command in commands)
    cases = "".join("    %s) _arguments %s ;;\n" % (command.name, zsh_arguments(command)) for command in commands if command.kind == "program")
    return "#compdef snowbench\n" + MADE % "zsh" + """\
_snowbench() {
  local -a commands
  commands=(
%s  )
  if (( CURRENT == 2 )) || [[ $words[2] = help && CURRENT -eq 3 ]]; then
    _describe -t commands command commands
    return
  fi
  local command=$words[2]
  shift words
  (( CURRENT-- ))
  case $command in
%s  esac
}
_snowbench "$@"
""" % (listed, cases)


def fish_of(command: Command) -> str:
    """Returns the lines of fish on the options and files of a command."""
    seen = "complete -c snowbench -n %s" % quoted("__fish_seen_subcommand_from " + command.name)
    lines = ["%s -l %s%s -d %s" % (seen, option.name[2:], " -x" if option.value else "", quoted(option.text)) for option in command.options]
    if command.kind == "program":
        lines.append("%s -l help -d %s" % (seen, quoted("show what %s takes" % command.name)))
    if takes_files(command):
        lines.append(seen + " -F")
    return "".join(line + "\n" for line in lines)


def fish(definition: Definition) -> str:
    """Returns the completions for fish."""
    commands = definition.installed()
    first = "complete -c snowbench -n __fish_use_subcommand"
    lines = ["complete -c snowbench -f"]
    for command in commands:
        kind = "-l " + command.name[2:] if command.name.startswith("--") else "-a " + command.name
        lines.append("%s %s -d %s" % (first, kind, quoted(command.does)))
    for command in commands:
        if not command.name.startswith("-") and command.name != "help":
            lines.append("complete -c snowbench -n '__fish_seen_subcommand_from help' -a %s -d %s" % (command.name, quoted(command.does)))
    return MADE % "fish" + "".join(line + "\n" for line in lines) + "".join(map(fish_of, commands))
