"""Completions of bash, zsh and fish, from the parsers of the command lines: commands, options, and values that an option chooses from."""
from __future__ import annotations

import argparse

from lowering import options as lowering_options

HIPPO_COMMANDS = ("run", "record", "check", "repair", "rerun", "demo", "many", "crash", "thin")
LEVELS = ("-O0", "-O1", "-O2", "-O3", "-Os")


def commands_of(parser: argparse.ArgumentParser) -> dict[str, argparse.ArgumentParser]:
    """The parser of each command."""
    found = next(action for action in parser._actions if isinstance(action, argparse._SubParsersAction))
    return dict(found.choices)


def options_of(parser: argparse.ArgumentParser) -> list[str]:
    """The options of a command."""
    return sorted(option for action in parser._actions for option in action.option_strings)


def values_of(parsers: list[argparse.ArgumentParser]) -> dict[str, list[str]]:
    """The values of those options that choose among some."""
    return {
        option: [str(value) for value in action.choices]
        for parser in parsers
        for action in parser._actions
        if action.choices is not None and not isinstance(action, argparse._SubParsersAction)
        for option in action.option_strings
        if option != "-O"
    }


def files(parser: argparse.ArgumentParser) -> dict[str, str]:
    """The files of the completions, by their paths under `share`."""
    parsers = commands_of(parser)
    commands = {name: options_of(one) for name, one in parsers.items()}
    values = values_of(list(parsers.values()))
    of_lower = " ".join([*LEVELS, *options_of(lowering_options.build_parser(""))])
    return {
        "bash-completion/completions/hippo-c": bash(commands, values),
        "bash-completion/completions/hippo": f'complete -W "{" ".join(HIPPO_COMMANDS)}" -o default hippo\n',
        "bash-completion/completions/hippo-lower": f'complete -W "{of_lower}" -o default hippo-lower\n',
        "zsh/site-functions/_hippo-c": zsh(commands, values),
        "fish/vendor_completions.d/hippo-c.fish": fish(commands, values),
    }


def bash(commands: dict[str, list[str]], values: dict[str, list[str]]) -> str:
    """The completion of bash. It makes words of `--color=auto` at the `=`."""
    cases = "".join(f'    {name}) words="{" ".join(options)}" ;;\n' for name, options in commands.items())
    chosen = "".join(
        f'    {option}) mapfile -t COMPREPLY < <(compgen -W "{" ".join(found)}" -- "$word"); return ;;\n'
        for option, found in values.items()
    )
    return f"""_hippo_c() {{
  local words="{' '.join(commands)}" word=${{COMP_WORDS[COMP_CWORD]}} before=${{COMP_WORDS[COMP_CWORD - 1]}}
  if [ "$word" = = ]; then
    word= before=${{COMP_WORDS[COMP_CWORD - 1]}}
  elif [ "$before" = = ] && [ "$COMP_CWORD" -gt 2 ]; then
    before=${{COMP_WORDS[COMP_CWORD - 2]}}
  fi
  case $before in
{chosen}  esac
  if [ "$COMP_CWORD" -gt 1 ]; then
    case ${{COMP_WORDS[1]}} in
{cases}    *) words= ;;
    esac
  fi
  case $word in
    -*) mapfile -t COMPREPLY < <(compgen -W "$words" -- "$word") ;;
    *)
      if [ "$COMP_CWORD" -eq 1 ]; then
        mapfile -t COMPREPLY < <(compgen -W "$words" -- "$word")
      else
        mapfile -t COMPREPLY < <(compgen -f -- "$word")
      fi
      ;;
  esac
}}
complete -o filenames -F _hippo_c hippo-c
"""


def zsh(commands: dict[str, list[str]], values: dict[str, list[str]]) -> str:
    """The completion of zsh."""
    cases = "".join(f'  {name}) compadd -- {" ".join(options)} ;;\n' for name, options in commands.items())
    chosen = "".join(f'  {option}) compadd -- {" ".join(found)}; return ;;\n' for option, found in values.items())
    return f"""#compdef hippo-c
if (( CURRENT == 2 )); then
  compadd -- {' '.join(commands)}
  return
fi
case $words[CURRENT-1] in
{chosen}esac
case $words[2] in
{cases}esac
_files
"""


def fish(commands: dict[str, list[str]], values: dict[str, list[str]]) -> str:
    """The completion of fish."""
    lines = [f"complete -c hippo-c -n '__fish_use_subcommand' -f -a '{' '.join(commands)}'"]
    for name, options in commands.items():
        for option in options:
            kind = (
                f"-l {option[2:]}"
                if option.startswith("--")
                else f"-s {option[1:]}"
                if len(option) == 2
                else f"-o {option[1:]}"
            )
            chosen = f" -x -a '{' '.join(values[option])}'" if option in values else ""
            lines.append(f"complete -c hippo-c -n '__fish_seen_subcommand_from {name}' {kind}{chosen}")
    return "\n".join(lines) + "\n"
