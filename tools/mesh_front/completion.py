"""`mesh completion`: a script for bash or zsh that completes the commands and options of `tools/mesh`."""

import argparse

SHELLS = ("bash", "zsh")
SCRIPT = """\
# Completes the words of tools/mesh: source <(tools/mesh completion {shell})
{before}_mesh() {{
  local word=${{COMP_WORDS[COMP_CWORD]}} before=${{COMP_WORDS[COMP_CWORD - 1]}} words=''
  case $before in
    -o | --output) words='table wide json yaml html' ;;
    --feed | --program | --apply) COMPREPLY=($(compgen -f -- "$word")); return ;;
{choices}
    *)
      case ${{COMP_WORDS[1]}} in
{cases}
      esac
      if ((COMP_CWORD == 1)); then words='{commands}'; fi ;;
  esac
  COMPREPLY=($(compgen -W "$words" -- "$word"))
  if ((${{#COMPREPLY[@]}} == 0)) && [[ $word != -* ]] && ((COMP_CWORD > 1)); then COMPREPLY=($(compgen -f -- "$word")); fi
}}
complete -o filenames -F _mesh mesh tools/mesh ./tools/mesh
"""


def options(parser: argparse.ArgumentParser) -> list[str]:
    """The options of a parser."""
    return [name for action in parser._actions for name in action.option_strings]


def script(shell: str, commands: dict[str, argparse.ArgumentParser], general: list[str]) -> str:
    """The script for a shell."""
    cases = "\n".join(f"        {name}) words='{' '.join(options(parser))}' ;;" for name, parser in commands.items())
    before = "autoload -U +X compinit bashcompinit && compinit -u && bashcompinit\n" if shell == "zsh" else ""
    choices = f"    completion) words='{' '.join(SHELLS)}' ;;"
    return SCRIPT.format(shell=shell, before=before, choices=choices, cases=cases, commands=" ".join([*commands, *general]))
