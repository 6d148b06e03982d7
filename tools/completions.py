"""What completes a program's words in bash, zsh and fish, made of what its own `--help` says."""
import re

FILE = re.compile(r"PATH|FILE|DIR|OUT|^OLD$")


BASH = """\
# Completion of {name} for bash, made of what `{name} --help` says.
_{name}() {{
    local word=${{COMP_WORDS[COMP_CWORD]}} before=${{COMP_WORDS[COMP_CWORD - 1]}} command= options= words= at
    for ((at = 1; at < COMP_CWORD; at++)); do
        case ${{COMP_WORDS[at]}} in
            {skipped}) ((at++)) ;;
            -*) ;;
            *)
                command=${{COMP_WORDS[at]}}
                break
                ;;
        esac
    done
    case $command in
{cases}
    esac
    [[ $word == -* ]] && words=$options
    case "$command $before" in
{values}
    esac
    mapfile -t COMPREPLY < <(compgen -W "$words" -- "$word")
}}
# (where nothing is found, the names of files)
complete -o default -F _{name} {name}
"""


def bash(program):
    """The completion of a `help_text.Program` for bash."""
    cases, values = [], []
    for command, options in program.options().items():
        names = " ".join(name for it in options for name in it.names)
        words = "" if command else f' words="{" ".join(name for name, _ in program.commands)}"'
        cases.append(f"""        {command or "''"}) options="{names}"{words} ;;""")
        values += [f'        "{command} {name}") words="{" ".join(it.choices())}" ;;'
                   for it in options if it.value for name in it.names]
    skipped = " | ".join(name for it in program.said.options() if it.value for name in it.names)
    return BASH.format(name=program.name, skipped=skipped or "--", cases="\n".join(cases), values="\n".join(values))


def quoted(text):
    """Text within the single quotes of a shell."""
    return text.replace("'", "'\\''")


def zsh_option(option):
    """The words of _arguments for an option, one for each of its names."""
    text = re.sub(r"([\[\]\\:])", r"\\\1", option.text)
    value = ""
    if option.value:
        choices = option.choices()
        action = f"({' '.join(choices)})" if choices else "_files" if FILE.search(option.value) else ""
        value = f":{re.sub(r'[^A-Za-z ]', ' ', option.value).strip().lower()}:{action}"
    return [f"'{quoted(f'{name}[{text}]{value}')}'" for name in option.names]


ZSH = """\
#compdef {name}
# Completion of {name} for zsh, made of what `{name} --help` says.
_{name}() {{
    local curcontext=$curcontext state line
    local -a commands
    _arguments -C \\
{options}
    case $state in
        command)
            commands=(
{commands}
            )
            _describe command commands
            ;;
        argument)
            case $words[1] in
{cases}
            esac
            ;;
    esac
}}
_{name} "$@"
"""


def zsh_arguments(options, *more):
    """The words of _arguments, a line each."""
    words = [*(word for it in options for word in zsh_option(it)), *more]
    return " \\\n".join(f"            {it}" for it in words)


def zsh(program):
    """The completion of a `help_text.Program` for zsh."""
    options = program.options()
    first = zsh_arguments(options.pop(""), "'1:command:->command'", "'*::argument:->argument'")
    described = [f"'{quoted(name)}:{quoted(text)}'" for name, text in program.commands]
    cases = [f"""        {name})\n            _arguments \\\n{zsh_arguments(its, "'*:file:_files'")}\n            ;;"""
             for name, its in options.items()]
    return ZSH.format(name=program.name, options=first, commands="\n".join(f"            {it}" for it in described),
                      cases="\n".join(cases))


def fish_option(name, condition, option):
    """The line of `complete` for an option."""
    flags = [f"-l {it[2:]}" if it.startswith("--") else f"-s {it[1:]}" for it in option.names]
    if option.choices():
        flags.append(f"-x -a '{' '.join(option.choices())}'")
    elif option.value:
        flags.append("-r -F" if FILE.search(option.value) else "-x")
    return f"complete -c {name} -n '{condition}' {' '.join(flags)} -d '{fish_quoted(option.text)}'"


def fish_quoted(text):
    return text.replace("\\", "\\\\").replace("'", "\\'")


def fish(program):
    """The completion of a `help_text.Program` for fish."""
    name = program.name
    before = f"not __fish_seen_subcommand_from {' '.join(command for command, _ in program.commands)}"
    lines = [f"# Completion of {name} for fish, made of what `{name} --help` says."]
    lines += [f"complete -c {name} -n '{before}' -f -a {command} -d '{fish_quoted(text)}'"
              for command, text in program.commands]
    for command, options in program.options().items():
        condition = f"__fish_seen_subcommand_from {command}" if command else before
        lines += [fish_option(name, condition, it) for it in options]
    return "\n".join(lines) + "\n"
