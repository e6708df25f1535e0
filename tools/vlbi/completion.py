"""What bash and zsh complete of the program `vlbi` and of the commands around it, by what these know of their own words.

    python3 -m vlbi.completion bash > /usr/share/bash-completion/completions/vlbi
    python3 -m vlbi.completion zsh > /usr/share/zsh/vendor-completions/_vlbi

One text serves all commands: bash finds it under the name of each.
"""
from __future__ import annotations

import argparse
import dataclasses
import importlib
import pkgutil
import sys
from collections.abc import Iterator

from vlbi import commands
from vlbi.words import COMMANDS

# options and words that are files
FILES = ("job", "vex", "phase", "program", "output", "im", "uvw", "records", "picture", "journal", "folder", "schedule", "certificate")


@dataclasses.dataclass(frozen=True)
class Option:
    """An option of a command: its names, what it says, whether a value follows, whether that is a file, and the words that it may be."""

    names: tuple[str, ...]
    help: str
    has_value: bool
    is_file: bool
    choices: tuple[str, ...] = ()
    again: bool = False


@dataclasses.dataclass(frozen=True)
class Command:
    """A command: its name, its Options, and what its first word may be, where it is none of files."""

    name: str
    options: tuple[Option, ...]
    words: tuple[str, ...] = ()


def around() -> list[Command]:
    """The commands around the program, each by its own parser."""
    names = sorted(one.name for one in pkgutil.iter_modules(commands.__path__))
    return [of_parser(importlib.import_module(f"vlbi.commands.{name}").parser()) for name in names]


def of_parser(parser: argparse.ArgumentParser) -> Command:
    words = next((tuple(action.choices) for action in parser._actions if not action.option_strings and action.choices), ())
    return Command(parser.prog, tuple(option_of(action) for action in parser._actions if action.option_strings), words)


def option_of(action: argparse.Action) -> Option:
    return Option(
        tuple(action.option_strings), (action.help or "").replace("%(prog)s", "the command"), action.nargs != 0, action.dest in FILES,
        tuple(map(str, action.choices or ())), isinstance(action, argparse._AppendAction),
    )


def program() -> dict[str, Command]:
    """The commands of the program."""
    return {
        name: Command(name, tuple(Option((option,), "", True, option[2:] in FILES) for option in options)) for name, options in COMMANDS.items()
    }


# bash

def bash() -> Iterator[str]:
    yield "# Completion of vlbi and of the commands around it, for bash; made by vlbi.completion.\n"
    yield "_vlbi_options() {\n  case $1 in\n"
    rows = named()
    for name, command in rows:
        yield f"    '{name}') echo '{' '.join(one for option in command.options for one in option.names)}' ;;\n"
    yield "  esac\n}\n_vlbi_values() {\n  case $1 in\n"
    for name, command in rows:
        for option in command.options:
            if option.has_value:
                yield f"    {'|'.join(quoted(name, one) for one in option.names)}) echo '{value_words(option)}' ;;\n"
    yield "  esac\n}\n_vlbi_words() {\n  case $1 in\n"
    for name, command in rows:
        if command.words:
            yield f"    '{name}') echo '{' '.join(command.words)}' ;;\n"
    yield "  esac\n}\n" + BASH + f"complete -F _vlbi vlbi {' '.join(command.name for command in around())}\n"


def named() -> list[tuple[str, Command]]:
    """All commands by the names under which the tables have them: those of the program behind its name."""
    return [(f"vlbi {name}", command) for name, command in program().items()] + [(command.name, command) for command in around()]


def quoted(name: str, option: str) -> str:
    return f"'{name} {option}'"


def value_words(option: Option) -> str:
    """What stands for a value: the words that it may be, or `-file`, or `-any`."""
    return " ".join(option.choices) or ("-file" if option.is_file else "-any")


BASH = r"""_vlbi() {
  local cur prev words cword split
  _init_completion -s || return
  local name=${words[0]##*/} values
  if [[ $name == vlbi ]]; then
    if [[ $cword == 2 ]]; then
      COMPREPLY=($(compgen -W 'COMMANDS' -- "$cur"))
      return
    fi
    name="vlbi ${words[2]}"
  fi
  values=$(_vlbi_words "$name")
  if [[ $cword == 1 && -n $values && $cur != -* ]]; then
    COMPREPLY=($(compgen -W "$values" -- "$cur"))
    return
  fi
  values=$(_vlbi_values "$name $prev")
  case $values in
    -any) ;;
    '' | -file)
      if [[ $cur == -* && -z $values ]]; then
        COMPREPLY=($(compgen -W "$(_vlbi_options "$name")" -- "$cur"))
      else
        _filedir
      fi ;;
    *) COMPREPLY=($(compgen -W "$values" -- "$cur")) ;;
  esac
}
""".replace("COMMANDS", " ".join(COMMANDS))


# zsh

def zsh() -> Iterator[str]:
    yield f"#compdef vlbi {' '.join(command.name for command in around())}\n"
    yield "# Completion of vlbi and of the commands around it, for zsh; made by vlbi.completion.\n"
    yield "case $service in\n  vlbi)\n    if (( CURRENT == 2 )); then\n      _files\n"
    yield f"    elif (( CURRENT == 3 )); then\n      compadd -- {' '.join(COMMANDS)}\n    else\n"
    yield "      words=(\"${words[@]:2}\")\n      (( CURRENT -= 2 ))\n      case $words[1] in\n"
    for name, command in program().items():
        yield f"        {name}) _arguments {' '.join(specs(command))} ;;\n"
    yield "      esac\n    fi ;;\n"
    for command in around():
        yield f"  {command.name}) _arguments {' '.join(specs(command))} ;;\n"
    yield "esac\n"


def specs(command: Command) -> Iterator[str]:
    """The command's options as `_arguments` wants them, and its words, which are files."""
    for option in command.options:
        for name in option.names:
            value = f":{name.lstrip('-')}:{zsh_value(option)}" if option.has_value else ""
            said = "".join("\\" + sign if sign in "[]:\\" else sign for sign in option.help)
            text = f"{'*' if option.again else ''}{name}{'=' if option.has_value and name.startswith('--') else ''}{f'[{said}]' if said else ''}{value}"
            yield "'" + text.replace("'", "'\\''") + "'"
    if command.words:
        yield f"'1:word:({' '.join(command.words)})'"
    yield "'*:file:_files'"


def zsh_value(option: Option) -> str:
    return f"({' '.join(option.choices)})" if option.choices else "_files" if option.is_file else " "


if __name__ == "__main__":
    sys.stdout.writelines({"bash": bash, "zsh": zsh}[sys.argv[1]]())
