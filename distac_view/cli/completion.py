"""Completion of command lines by bash, from the parser's table.

It offers subcommands, options and the values of options. For file names bash offers files.
"""

from __future__ import annotations

from typing import Iterator

from distac_view.cli.parser import Parser

BEGIN = """\
# Completion of distac-view for bash. Put this line into ~/.bashrc:
#   eval "$(distac-view --print-completion bash)"
_distac_view() {
    local word="${COMP_WORDS[COMP_CWORD]}" before="${COMP_WORDS[COMP_CWORD - 1]}" subcommand="" offered="" each
    for each in "${COMP_WORDS[@]:1:COMP_CWORD - 1}"; do
        case "$each" in
            SUBCOMMANDS) subcommand="$each" && break ;;
        esac
    done
    case "$subcommand $before" in
"""
END = """\
        *)
            case "$word $subcommand" in
OFFERED
            esac
            ;;
    esac
    mapfile -t COMPREPLY < <(compgen -W "$offered" -- "$word")
}
complete -o default -F _distac_view distac-view distac-view.pyz
"""


def bash_completion(parser: Parser) -> str:
    """The text for bash: a function that completes the words of this parser, and its commands."""
    subcommands = parser.subcommands
    begin = BEGIN.replace("SUBCOMMANDS", "|".join(subcommands))
    values = [line for name, own in [("", parser), *subcommands.items()] for line in values_of(name, own)]
    offered = [f'                -*" {name}") offered="{" ".join(options_of(own))}" ;;' for name, own in subcommands.items()]
    offered.append(f'                -*) offered="{" ".join(options_of(parser))}" ;;')
    offered.append(f'                *" ") offered="{" ".join(subcommands)}" ;;')
    return begin + "".join(line + "\n" for line in values) + END.replace("OFFERED", "\n".join(offered))


def options_of(parser: Parser) -> list[str]:
    """The long names of all options."""
    return [name for action in parser.actions for name in action.option_strings if name.startswith("--")]


def values_of(subcommand: str, parser: Parser) -> Iterator[str]:
    """The options of a subcommand that take a value, with the possible values. Otherwise bash offers files."""
    for action in parser.actions:
        if action.option_strings and action.nargs != 0:
            names = "|".join(f'"{subcommand} {name}"' for name in action.option_strings)
            choices = " ".join(str(choice) for choice in action.choices or ())
            yield f'        {names}) offered="{choices}" ;;'
