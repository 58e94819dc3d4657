"""`completion`: what completes the words of `whview` in bash and in zsh, made of the commands' own lists."""

from argparse import ArgumentParser
from collections.abc import Iterator

from .commands import COMMANDS, OF_PROGRAM
from .status import DONE

# What stands in each of these files, and in no other.
MARK = "# Made by `whview completion`."
FIXED = {"use": ("proved", "unproved"), "install": ("--prefix",), "uninstall": ("--prefix",), "completion": ("bash", "zsh")}
BASH = """\
{mark}
_whview() {{
  local words="${{COMP_WORDS[*]:1:COMP_CWORD-1}}" current="${{COMP_WORDS[COMP_CWORD]}}" found= options=
  case "$words" in
{cases}
  esac
  case "$current" in
    -*) COMPREPLY=($(compgen -W "$options" -- "$current")) ;;
    *) COMPREPLY=($(compgen -W "$found" -- "$current")); [ -n "$found" ] || COMPREPLY=($(compgen -f -- "$current")) ;;
  esac
}}
complete -o filenames -F _whview whview
"""
ZSH = """\
#compdef whview
{mark}
_whview() {{
  local -a found options
  case "${{(j: :)words[2,CURRENT-1]}}" in
{cases}
  esac
  if [[ ${{words[CURRENT]}} == -* ]]; then compadd -- $options
  elif (( $#found )); then compadd -- $found
  else _files
  fi
}}
_whview "$@"
"""


def rooms() -> Iterator[tuple[str, dict[str, list[str]]]]:
    """Each room with its commands and the options of these."""
    from .cluster import command as cluster
    from .folder import command as folder
    from .folder.helps import options_of
    from .sql import command as sql

    yield "folder", {name: sorted(set(options_of(name))) for name in folder.COMMANDS}
    yield "sql", sql.options()
    yield "cluster", cluster.options()


def lines(form: str) -> list[str]:
    """What is completed behind which words: the longest first, since the first that fits is taken."""
    made: list[tuple[str, list[str], list[str]]] = []
    for room, commands in rooms():
        made += [(f"{room} {name}*", [], options) for name, options in sorted(commands.items(), reverse=True)]
        made.append((f"{room}", list(commands), ["--help"]))
    made += [(f"{name}*", [], [*options, "--unproved", "--help"]) for name, (_, options) in OF_PROGRAM.items()]
    made += [(f"{name}*", [word for word in words if word[0] != "-"], [word for word in words if word[0] == "-"]) for name, words in FIXED.items()]
    made.append(("", list(COMMANDS), ["--help", "--version"]))
    return [form.format(pattern=quoted(pattern), found=" ".join(found), options=" ".join(options)) for pattern, found, options in made]


def quoted(pattern: str) -> str:
    """A pattern of a shell's `case`, whose blanks are none of the shell's; behind a command other words may stand."""
    whole = f'"{pattern.removesuffix("*")}"'
    return f'{whole} | {whole[:-1]} "*' if pattern.endswith("*") else whole


def text(shell: str) -> str:
    """The file for a shell."""
    if shell == "bash":
        return BASH.format(mark=MARK, cases="\n".join(lines('    {pattern}) found="{found}" options="{options}" ;;')))
    return ZSH.format(mark=MARK, cases="\n".join(lines("    {pattern}) found=({found}) options=({options}) ;;")))


def run(command: str, words: list[str]) -> int:
    """Prints the file for a shell."""
    about = f"Prints what completes words in a shell; `whview install` puts it where shells look. By hand: eval \"$(whview {command} bash)\""
    given = ArgumentParser(f"whview {command}", description=about)
    given.add_argument("shell", choices=("bash", "zsh"))
    print(text(given.parse_args(words).shell), end="")
    return DONE
