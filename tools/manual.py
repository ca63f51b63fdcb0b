"""The page of the manual and the completions of shells, made from the list of commands."""
import re

HEAD = r""".TH BSPL 1 "" "deknhorm %(version)s" "Deknhorm"
.SH NAME
bspl \- judges and plays protocols of parties who hear things late, twice or never
.SH SYNOPSIS
.B bspl
.I COMMAND
.RI [ ARGUMENTS ]
.RI [ "< FILE" ]
.SH DESCRIPTION
A protocol is a text in the language BSPL, which is read from standard input; NAME is that of a protocol in it. The
answer goes to standard output, and what the script adds goes to standard error.
.SH COMMANDS
"""
TAIL = r""".SH EXIT STATUS
.TP
.B 0
The protocol has what was asked about, or the input is accepted.
.TP
.B 1
It has not, or the input is rejected.
.TP
.B 2
The search was cut off before it came to a verdict.
.TP
.B 3
The arguments are invalid.
.TP
.B 4
The input is refused;
.B bspl explain
says why.
.TP
.BR 5 ", " 6
Reading failed; writing failed.
.TP
.B 7
Out of memory.
.PP
.B sat
ends with 10 for a formula that is satisfiable, with 20 for one that is not, and with 0 if it was cut off.
.SH FILES
To uninstall, remove these below the prefix:
.IR bin/bspl ,
.IR lib/deknhorm ,
.IR share/man/man1/bspl.1 ,
.IR share/bash-completion/completions/bspl ,
.IR share/zsh/site-functions/_bspl ,
.IR share/fish/vendor_completions.d/bspl.fish .
"""


def escaped(text):
    """A text for the manual: hyphens are those of commands, and no line begins with a dot."""
    return text.replace("\\", r"\e").replace("-", r"\-").replace("'", r"\(aq")


def page(listed, version):
    entries = []
    for it in listed:
        example = f"\n.br\n.RS\n.B bspl {escaped(it.example)}\n.RE" if it.example else ""
        entries.append(f".TP\n.B {escaped(f'{it.word} {it.args}'.strip())}\n{escaped(it.does)}{example}\n")
    return HEAD % {"version": version} + "".join(entries) + TAIL


def options(it):
    """The options that the command takes."""
    return re.findall(r"--[a-z]+", it.args)


def bash(listed):
    cases = "".join(f"    {it.word}) words='{' '.join(options(it))}' ;;\n" for it in listed if options(it))
    words = " ".join(it.word for it in listed)
    return f"""# completion of bspl for bash
_bspl() {{
    local words= word=${{COMP_WORDS[COMP_CWORD]}}
    if [ "$COMP_CWORD" = 1 ]; then
        words='{words}'
    else
        case ${{COMP_WORDS[1]}} in
    help | explain) words='{words}' ;;
{cases}        esac
    fi
    mapfile -t COMPREPLY < <(compgen -W "$words" -- "$word")
}}
complete -o default -F _bspl bspl
"""


def zsh(listed):
    words = "".join(f"    '{it.word}:{it.does}'\n" for it in listed)
    cases = "".join(
        f"{it.word}) _arguments {' '.join(options(it))} '*:file:_files' ;;\n" for it in listed if options(it)
    )
    return f"""#compdef bspl
# completion of bspl for zsh
local -a commands
commands=(
{words})
if (( CURRENT == 2 )); then
    _describe command commands
    return
fi
case $words[2] in
help | explain) _describe command commands ;;
{cases}*) _files ;;
esac
"""


def fish(listed):
    lines = ["# completion of bspl for fish"]
    for it in listed:
        lines.append(f"complete -c bspl -n __fish_use_subcommand -a {it.word} -d '{it.does}'")
        for option in options(it):
            lines.append(f"complete -c bspl -n '__fish_seen_subcommand_from {it.word}' -l {option[2:]}")
    return "\n".join(lines) + "\n"
