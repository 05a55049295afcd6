"""The completion for bash: commands, then options of the command, then files."""

from __future__ import annotations

from .helps import Command, commands

HEAD = """# Completes the words of ftmpi in bash. scripts/install writes this from the helps.
_ftmpi() {
  local word=${COMP_WORDS[COMP_CWORD]} before=${COMP_WORDS[COMP_CWORD-1]} options='' numbers=''
  if [ "$COMP_CWORD" -eq 1 ]; then
    mapfile -t COMPREPLY < <(compgen -W '%(commands)s help --help --version' -- "$word")
    return
  fi
  case ${COMP_WORDS[1]} in
"""
TAIL = """    help) mapfile -t COMPREPLY < <(compgen -W '%(commands)s' -- "$word"); return ;;
  esac
  case " $numbers " in *" $before "*) COMPREPLY=(); return ;; esac
  case $word in
    -*) mapfile -t COMPREPLY < <(compgen -W "$options" -- "$word") ;;
    *) compopt -o filenames 2>/dev/null; mapfile -t COMPREPLY < <(compgen -f -- "$word") ;;
  esac
}
complete -F _ftmpi ftmpi
"""


def case_of(command: Command) -> str:
    """The options of a command, and those that a number follows."""
    options = " ".join(it.long for it in command.options)
    numbers = " ".join(it.long for it in command.options if it.value not in ("", "FILE"))
    return f"    {command.name}) options='{options}' numbers='{numbers}' ;;\n"


def script() -> str:
    found = commands()
    names = {"commands": " ".join(it.name for it in found)}
    return HEAD % names + "".join(map(case_of, found)) + TAIL % names
