"""The manual page of a program and its completions for bash and zsh, made of what its help says."""

from collections import namedtuple

# version: as --version prints it; help: that of the program itself; commands: each name with its Help; statuses: pairs, none if each command has its own
Program = namedtuple("Program", "name version help commands statuses notes")
FILES = ("DEFS", "DEFINITIONS", "GUARANTEES", "CERTS", "CERTIFICATES", "SCRIPT", "FILE", "SVG", "VERDICTS", "EXPORT", "FOLDER", "NEW", "PROGRAM")
MADE_BY = "made by `python3 -m dev.manual` of the program's help"


# ---- the manual page


def roff(text):
    """A text as roff reads it: each minus as one, and no line that begins with a request."""
    escaped = text.replace("\\", "\\e").replace("-", "\\-")
    return "\\&" + escaped if escaped[:1] in (".", "'") else escaped


def bold(text):
    return f"\\fB{roff(text)}\\fR"


def named(option):
    names = [it for it in (option.short, option.long) if it]
    return ", ".join(map(bold, names)) + (f" \\fI{roff(option.value)}\\fR" if option.value else "")


def term(name, what):
    return [".TP", name, roff(what)]


def words_of_usage(usage):
    """A usage without its brackets around names: the program's form of `<DEFS>` is that of the page's italics."""
    return [f"\\fI{roff(it.strip('<>'))}\\fR" if it.startswith("<") else roff(it) if it.startswith("[") else bold(it) for it in usage.split()]


def sentence(text):
    return text[:1].upper() + text[1:] + ("" if text.endswith(".") else ".")


def of_command(name, it):
    yield from (f".SS {name}", roff(sentence(it.about)))
    for argument, what in it.arguments:
        yield from term(f"\\fI{roff(argument)}\\fR", sentence(what))
    for option in it.options:
        yield from term(named(option), sentence(option.what))
    if it.ends:
        yield from (".PP", roff(sentence(it.ends)))


def manual(program):
    name, about = program.name, program.help.about
    lines = [f'.\\" {MADE_BY}', f'.TH {name.upper()} 1 "" "{program.version}"']
    lines += [".SH NAME", f"{name} \\- {roff(about[0].lower() + about[1:])}", ".SH SYNOPSIS"]
    for _, it in program.commands:
        lines += [" ".join(words_of_usage(it.usage)), ".br"]
    lines[-1:] = [".SH COMMANDS"]
    for it in program.commands:
        lines += of_command(*it)
    lines += [".SH OPTIONS"]
    for option in program.help.options:
        lines += term(named(option), sentence(option.what))
    if program.statuses:
        lines += [".SH EXIT STATUS"]
        for status, meaning in program.statuses:
            lines += term(bold(str(status)), meaning + ".")
    return "\n".join(lines + [".SH NOTES", roff(program.notes)]) + "\n"


# ---- bash


def bash_of(it):
    """What may follow a command: its options, and files where a file is wanted."""
    options = " ".join(name for option in it.options for name in (option.short, option.long) if name)
    file_options = "|".join(option.long for option in it.options if option.value in FILES)
    value_options = "|".join(option.long for option in it.options if option.value and option.value not in FILES)
    places = [str(place) for place, (name, _) in enumerate(it.arguments, 1) if name in FILES]
    return options, file_options, value_options, "|".join(places)


BASH_BEGINS = """
_@program() {
    local word=${COMP_WORDS[COMP_CWORD]} before=${COMP_WORDS[COMP_CWORD - 1]} command=${COMP_WORDS[1]}
    local options= files= values= places= place=0 it
    if ((COMP_CWORD == 1)); then
        mapfile -t COMPREPLY < <(compgen -W "@commands @options" -- "$word")
        return
    fi
    case $command in
"""
BASH_ENDS = """        help) ((COMP_CWORD == 2)) && mapfile -t COMPREPLY < <(compgen -W "@commands" -- "$word"); return ;;
        *) return ;;
    esac
    if [[ $word == -* ]]; then
        mapfile -t COMPREPLY < <(compgen -W "$options" -- "$word")
        return
    fi
    [[ $before == : || -n $values && $before =~ ^($values)$ ]] && return
    # which argument this is: options and their values are none, and bash parts an address at its colon
    for ((it = 2; it <= COMP_CWORD; it++)); do
        [[ ${COMP_WORDS[it]} == -* && $it != "$COMP_CWORD" ]] && continue
        [[ ${COMP_WORDS[it]} == : || ${COMP_WORDS[it - 1]} == : ]] && continue
        [[ -n $values$files && ${COMP_WORDS[it - 1]} =~ ^($values|$files)$ && ${COMP_WORDS[it - 1]} ]] && continue
        ((++place))
    done
    if [[ (-n $files && $before =~ ^($files)$) || $place =~ ^($places)$ ]]; then
        mapfile -t COMPREPLY < <(compgen -f -- "$word")
    fi
}
complete -o filenames -F _@program @program
"""


def bash(program):
    names = " ".join(name for name, _ in program.help.commands)
    top = " ".join(name for option in program.help.options for name in (option.short, option.long) if name)
    rows = ""
    for name, it in program.commands:
        options, files, values, places = bash_of(it)
        rows += f"        {name}) options='{options}' files='{files}' values='{values}' places='{places}' ;;\n"
    text = (BASH_BEGINS + rows + BASH_ENDS).replace("@commands", names).replace("@options", top).replace("@program", program.name)
    return f"# completions of {program.name} for bash, {MADE_BY}\n" + text


# ---- zsh


def quoted(text):
    return "'" + text.replace("'", "'\\''") + "'"


def described(text):
    """A description within a specification of `_arguments`."""
    return "".join("\\" + it if it in "\\[]:" else it for it in text)


def zsh_options(it):
    for option in it.options:
        value = f":{described(option.value)}:{'_files' if option.value in FILES else ' '}" if option.value else ""
        both = f"({option.short} {option.long})" if option.short else ""
        for name in (option.short, option.long):
            if name:
                yield quoted(f"{both}{name}[{described(option.what)}]{value}")


ZSH_BEGINS = """
_@program() {
    local curcontext=$curcontext state line
    local -a commands
    commands=(
@commands
    )
    _arguments -C @options \\
        '1:command:->command' '*::argument:->argument'
    case $state in
        command) _describe command commands ;;
        argument)
            case $words[1] in
"""
ZSH_ENDS = """                help) _describe command commands ;;
            esac
            ;;
    esac
}

_@program "$@"
"""


def zsh_row(name, it):
    """What may follow a command, each on a line of its own."""
    places = [quoted(f"{place}:{described(what)}:{'_files' if argument in FILES else ' '}") for place, (argument, what) in enumerate(it.arguments, 1)]
    joined = " \\\n                        ".join([*zsh_options(it), *places])
    return f"                {name})\n                    _arguments {joined}\n                    ;;\n"


def zsh(program):
    commands = "\n".join(f"        {quoted(name + ':' + described(what))}" for name, what in program.help.commands)
    begins = ZSH_BEGINS.replace("@commands", commands).replace("@options", " ".join(zsh_options(program.help)))
    rows = "".join(zsh_row(*it) for it in program.commands)
    text = (begins + rows + ZSH_ENDS).replace("@program", program.name)
    return f"#compdef {program.name}\n# completions of {program.name} for zsh, {MADE_BY}\n" + text


def made_of(program):
    """The files by their names."""
    return {f"{program.name}.1": manual(program), f"{program.name}.bash": bash(program), f"_{program.name}": zsh(program)}
