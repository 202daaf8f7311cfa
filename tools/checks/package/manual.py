"""Manual pages in roff: those of tools from what `--help` says, and the others from their files beside this one."""

import argparse
import pathlib
import re

HERE = pathlib.Path(__file__).resolve().parent
COMMAND = "confbridge-tools"


def escaped(text):
    """A text as roff takes it, with the names of the package. A line may not begin with what roff would carry out."""
    text = re.sub(r"crates/(\w+)/out/\1", r"/usr/lib/confbridge/\1", text.replace("tools/bridge", COMMAND))
    text = text.replace("\\", "\\e").replace("-", "\\-").replace("`", "\\(ga").replace("'", "\\(aq")
    return "\n".join(f"\\&{line}" if line.startswith(".") else line for line in text.split("\n"))


def blocks(text):
    """Paragraphs as roff: one that is indented stands as it is."""
    for block in text.strip("\n").split("\n\n"):
        if block.startswith("    "):
            lines = escaped(f"\n{block}").replace("\n    ", "\n").removeprefix("\n")
            yield from (".PP", ".nf", ".RS 4", lines, ".RE", ".fi")
        else:
            yield from (".PP", escaped(block))


def head(name, commit, what):
    """The lines above a page's description."""
    title = f'.TH "{escaped(name.upper())}" 1 "{commit.day()}" "confbridge {commit.version}" "confbridge"'
    return [title, ".nh", ".ad l", ".SH NAME", f"{escaped(name)} \\- {escaped(what)}"]


def synopsis(command, actions):
    """The words of a command."""
    words = [f"\\fB{escaped(f'{COMMAND} {command}')}\\fR"]
    for one in actions:
        many = one.nargs not in (None, 0, "?")
        if one.option_strings:
            word = f"\\fB{escaped(one.option_strings[-1])}\\fR"
            word += "" if one.nargs == 0 else f" \\fI{escaped(named(one))}\\fR"
            words.append(word if one.required else f"[{word}]")
        else:
            word = f"\\fI{escaped(named(one))}\\fR" + (" ..." if many else "")
            words.append(f"[{word}]" if one.nargs in ("?", "*") else word)
    return " ".join(words)


def named(action):
    """What stands for an argument's value."""
    name = action.metavar or action.dest.upper()
    return " ".join(name) if isinstance(name, tuple) else name


def described(parser, action):
    """The lines of an option or of an argument."""
    value = "" if action.nargs == 0 else f"\\fI{escaped(named(action))}\\fR"
    names = ", ".join(f"\\fB{escaped(one)}\\fR" for one in action.option_strings)
    # Text of `%` needs no formatter, and defaults do.
    text = (action.help or "") % (vars(action) | {"prog": parser.prog})
    return [".TP", f"{names} {value}".strip(), escaped(text)]


def of_tool(command, module, commit):
    """The page of a tool."""
    parser = argparse.ArgumentParser(prog=f"{COMMAND} {command}", add_help=False)
    module.options(parser)
    actions = [one for one in parser._actions if one.help != argparse.SUPPRESS]
    what, _, rest = module.__doc__.partition("\n\n")
    what = what.replace("\n", " ").rstrip(".")
    lines = head(f"{COMMAND}-{command}", commit, what[0].lower() + what[1:])
    lines += [".SH SYNOPSIS", synopsis(command, actions), ".SH DESCRIPTION", *blocks(rest)]
    lines += [".PP", escaped(f"It needs {module.NEEDS}.")]
    if actions:
        lines += [".SH OPTIONS", *(line for one in actions for line in described(parser, one))]
    lines += [".SH SEE ALSO", f"\\fBconfbridge\\fR(1), \\fB{escaped(COMMAND)}\\fR(1)"]
    return "\n".join(lines) + "\n"


def of_tools(modules, commit):
    """The page of the command that has all tools."""
    lines = head(COMMAND, commit, "tools for operators of confbridge")
    lines += [
        ".SH SYNOPSIS", f"\\fB{escaped(COMMAND)}\\fR \\fINAME\\fR [\\fIOPTIONS\\fR]", ".SH DESCRIPTION",
        "Each tool has a page of its own, and says the same with \\fB\\-\\-help\\fR. They need Python 3 and nothing else.",
    ]  # fmt: skip
    for command, module in modules:
        what = module.__doc__.partition("\n\n")[0].replace("\n", " ")
        lines += [".TP", f"\\fB{escaped(f'{COMMAND}-{command}')}\\fR(1)", escaped(what)]
    lines += [".SH SEE ALSO", "\\fBconfbridge\\fR(1)"]
    return "\n".join(lines) + "\n"


def of_file(name, commit):
    """The page of a file."""
    text = (HERE / f"{name}.1").read_text()
    return text.replace("@DAY@", commit.day()).replace("@VERSION@", commit.version)
