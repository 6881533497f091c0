"""Help, manuals and completions: same options and commands, true examples, one version."""

import glob
import os
import re
import shlex
import shutil
import subprocess

from support.programs import TOP, program_at, version

PROGRAMS = ("litgrep", "litplan", "scand")


def ran(*words, **how):
    """Runs a program. Answers its status, output and messages, as texts."""
    done = subprocess.run(words, capture_output=True, timeout=60, **how)
    return done.returncode, done.stdout.decode(), done.stderr.decode()


def text_of(*names):
    """The text of a file of the repository."""
    with open(os.path.join(TOP, *names)) as file:
        return file.read()


def help_of(program, command):
    """The help text of a program, or of its command."""
    return ran(program_at(program), *command, "--help")[2]


def heads_of_help(program, command):
    """The options of a help text, each with its spellings and its argument."""
    heads = re.findall(r"^ +(-\S.*?)(?:  .*)?$", help_of(program, command), re.M)
    return [re.sub("[<>]", "", head) for head in heads]


def commands_of_help(program):
    """The commands that the help of a program lists."""
    listed = re.search(r"^Commands:\n((?:  .*\n)+)", help_of(program, ()), re.M)
    return re.findall(r"^  (\w+)", listed[1], re.M) if listed else []


def usages_of_help(program):
    """The usage lines of a program's help."""
    usage = re.search(r"^Usage: (.*\n(?: {7}.*\n)*)", help_of(program, ()), re.M)[1]
    return [line.strip() for line in usage.splitlines()]


def cleaned(line):
    """A line of a manual without its macro, quotes and escapes."""
    return " ".join(re.sub(r'^\.[A-Z]+ |[\\"]', "", line).split()).replace(" ,", ",")


def manual_of(program):
    return text_of("man", f"{program}.1")


def section_of(program, command):
    """The part of a manual that lists the options of a program, or of its command."""
    head = rf"\.SS {program} {command[0]}\b.*" if command else r"\.SH OPTIONS"
    return re.search(rf"^{head}\n((?:(?!\.S[SH]).*\n)*)", manual_of(program), re.M)[1]


def heads_of_manual(program, command):
    """The options of a manual, in the form of a help text."""
    tags = re.findall(r"^\.TP\n(.*)", section_of(program, command), re.M)
    return [cleaned(tag) for tag in tags if cleaned(tag).startswith("-")]


def names_in(heads):
    """The spellings of options."""
    return sorted(re.findall(r"(?<![^\s,])--?\w[\w-]*", "\n".join(heads)))


def in_bash(program, *words):
    """The completions that bash offers for the last word."""
    script = 'source "$0"; COMP_WORDS=("$@"); COMP_CWORD=$(($# - 1)); "_$1" 2> /dev/null; printf "%s\n" "${COMPREPLY[@]}"'
    shown = ran("bash", "-c", script, os.path.join(TOP, "completions", "bash", program), program, *words)[1]
    return shown.split()


def in_zsh(program, command, given=None):
    """The options in the completion for zsh, without those that it drops beside one that is given. bash runs its script here."""
    script = '_arguments() { printf "%s\n" "$@"; }; source "$0"'
    if command:
        script += f" > /dev/null; _{program}_{command[0]}"
    shown = ran("bash", "-c", script, os.path.join(TOP, "completions", "zsh", f"_{program}"))[1]
    declared = {name: dropped.split() for dropped, name in re.findall(r"^(?:\(([^)]*)\))?\*?(--?\w[\w-]*)[+=]?\[", shown, re.M)}
    return sorted(set(declared).difference(declared[given] if given else ()))


def in_fish(program, command, given=None):
    """The options that the completion for fish declares for a program, or for its command, without those that it drops beside one
    that is given."""
    names = []
    for line in text_of("completions", "fish", f"{program}.fish").splitlines():
        words = shlex.split(line, comments=True)
        found = {word: value for word, value in zip(words, words[1:]) if re.fullmatch("-[nsl]", word)}
        condition, _, others = found.get("-n", "__fish_use_subcommand").partition("; and not __litplan_given ")
        wanted = condition.split()
        if given in others.split():
            continue
        if (not command and wanted == ["__fish_use_subcommand"]) or (command and command[0] in wanted[1:]):
            names += [f"-{found[word]}" if word == "-s" else f"--{found[word]}" for word in found if word != "-n"]
    return sorted(names)


def by_fish(program, *words):
    """The options that fish offers for the last word."""
    file = os.path.join(TOP, "completions", "fish", f"{program}.fish")
    shown = ran("fish", "-c", f"source {file}; complete -C '{' '.join([program, *words])}'")[1]
    return sorted(re.findall("^-\\S+", shown, re.M))


def options():
    """Help and manual list the same options in the same order, and completions offer the same options."""
    for program in PROGRAMS:
        for command in [(), *((name,) for name in commands_of_help(program) if name != "help")]:
            name = " ".join([program, *command])
            helped = heads_of_help(program, command)
            yield f"options of the manual, {name}", heads_of_manual(program, command), helped
            yield f"{name} in bash", sorted(in_bash(program, *command, "-")), names_in(helped)
            yield f"{name} in zsh", in_zsh(program, command), names_in(helped)
            yield f"{name} in fish", in_fish(program, command), names_in(helped)
            if shutil.which("fish"):
                yield f"{name} by fish", by_fish(program, *command, "-"), names_in(helped)


def commands():
    """Help, manual and completions name the same commands, and the manual shows them as the usage does."""
    listed = commands_of_help("litplan")
    headed = [cleaned(line) for line in re.findall(r"^\.SS .*", manual_of("litplan"), re.M)]
    yield "commands of the manual", [head.split()[1] for head in headed], listed
    yield "commands as the usage has them", headed[: len(listed) - 1], usages_of_help("litplan")
    yield "commands in bash", in_bash("litplan", ""), listed
    yield "commands to be helped with, in bash", in_bash("litplan", "help", ""), listed[:-1]
    zsh, fish = text_of("completions", "zsh", "_litplan"), text_of("completions", "fish", "litplan.fish")
    yield "commands in zsh", re.findall(r'(\w+)\\:"', zsh), listed
    yield "commands to be helped with, in zsh", re.findall(r"'1:command:\(([^()]*)\)'", zsh), [" ".join(listed[:-1])]
    yield "commands in fish", re.findall(r"use_subcommand -a (\w+)", fish), listed
    yield "commands to be helped with, in fish", re.findall(r"from help' -f -a '(.*)'", fish), [" ".join(listed[:-1])]


def given_by(head, name):
    """The words that give an option with this head by one of its names. Where it takes a value, `8` is one."""
    return [name, "8"] if head.split()[-1].isupper() else [name]


def conflicts():
    """Completions offer no option that litplan refuses beside one that is given, and offer all others."""
    for command in commands_of_help("litplan")[:-1]:
        heads = [head for head in heads_of_help("litplan", (command,)) if "--help" not in head]
        for head in heads:
            offered = {"-h", "--help"}
            for other in set(heads) - {head}:
                both = [*given_by(head, names_in([head])[0]), *given_by(other, names_in([other])[0])]
                if "cannot be used with" not in ran(program_at("litplan"), command, *both, stdin=subprocess.DEVNULL)[2]:
                    offered.update(names_in([other]))
            for name in names_in([head]):
                words, own = [command, *given_by(head, name), "-"], set(names_in([head]))
                yield f"litplan {words} in bash", set(in_bash("litplan", *words)) - own, offered
                yield f"litplan {words} in zsh", set(in_zsh("litplan", (command,), name)) - own, offered
                yield f"litplan {words} in fish", set(in_fish("litplan", (command,), name)) - own, offered
                if shutil.which("fish"):
                    yield f"litplan {words} by fish", set(by_fish("litplan", *words)) - own, offered


def words_in_bash():
    """Words that bash completes, and words that it leaves to its own completion of file names."""
    workers = [str(number) for number in range(1, 17)]
    for words, want in (
        (["litgrep", "--fi"], ["--fixed-strings", "--file", "--files-with-matches"]),
        (["litgrep", "-n", "cat", "--v"], ["--version"]),
        (["litgrep", "--x"], []),
        (["litgrep", "f"], []),
        (["litgrep", "-f", "-"], []),
        (["litgrep", "--regexp", "-"], []),
        (["litgrep", "--file", "=", "-"], []),
        (["litgrep", "--file", "="], []),
        (["litgrep", "-n", "--", "-"], []),
        (["litplan", "p"], ["plan", "pack"]),
        (["litplan", "plan", ""], []),
        (["litplan", "check", "--i"], ["--ignore-case"]),
        (["litplan", "scan", "--", "-"], []),
        (["litplan", "scan", "--workers", "2", "--w"], []),
        (["litplan", "scan", "--workers", ""], workers),
        (["litplan", "scan", "--workers", "="], workers),
        (["litplan", "scan", "--workers", "=", "1"], [number for number in workers if number.startswith("1")]),
        (["scand", "--st"], ["--stdio"]),
        (["scand", "--port", "1", "--po"], []),
        (["scand", "--port", ""], []),
        (["scand", "--plans", "-"], []),
        (["scand", "--plans", "=", "-"], []),
        (["scand", "--connections", "="], []),
    ):
        yield f"{words} in bash", in_bash(*words), want


def pages():
    """mandoc finds no lint in any page, and zsh and fish can read their completions, where these programs exist."""
    for page in sorted(glob.glob(os.path.join(TOP, "man", "*"))):
        if shutil.which("mandoc"):
            yield f"lint of {page}", ran("mandoc", "-Tlint", "-Wall", page), (0, "", "")
    for shell in "zsh", "fish":
        for file in glob.glob(os.path.join(TOP, "completions", shell, "*")):
            if shutil.which(shell):
                yield f"{shell} reads {file}", ran(shell, "-n", file), (0, "", "")


def example_of(page, number):
    """The example of a manual with this number."""
    return re.findall(r"^\.EX\n(.*?)^\.EE$", text_of("man", page), re.M | re.S)[number]


def bytes_in(lines):
    """The bytes that lines have in hexadecimal."""
    return bytes.fromhex("".join(re.findall(r"^[> ] *((?:[0-9A-F]{2} ?)+)$", "\n".join(lines), re.M)))


def examples():
    """The certificate, the plan file and the session that the manuals show."""
    planned = ran(program_at("litplan"), "plan", "-", input=b"horse\ncat\ndog\n")
    yield "the certificate of the manual", planned, (0, example_of("litplan-plans.5", 0), "")
    shown = re.findall("^(?:[0-9A-F]{2} {1,2})+", example_of("litplan-plans.5", 1), re.M)
    whole = "".join(shown + shown[-1:] * 8)
    done = subprocess.run([program_at("litplan"), "pack", "-", "/dev/stdout"], input=b"a\n", capture_output=True, timeout=60)
    yield "the plan file of the manual", (done.returncode, done.stdout.hex()), (0, bytes.fromhex(whole).hex())
    lines, is_asked, sides = example_of("scand-protocol.7", 0).splitlines(), False, {True: [], False: []}
    for line in lines:
        is_asked = line.startswith(">") or (is_asked and not re.match("  [0-9A-F]{2} ", line))
        sides[is_asked].append(line)
    done = subprocess.run([program_at("scand"), "--stdio"], input=bytes_in(sides[True]), capture_output=True, timeout=60)
    yield "the session of the manual", (done.returncode, done.stdout.hex(" ")), (1, bytes_in(sides[False]).hex(" "))


def versions():
    """Each program, each page, and the first heading of the changelog have the version of the code."""
    for program in PROGRAMS:
        yield f"{program} --version", ran(program_at(program), "--version"), (2, "", f"{program} {version()}\n")
    for page in sorted(os.listdir(os.path.join(TOP, "man"))):
        head = re.search(r"^\.TH .*", text_of("man", page), re.M)[0]
        name, section = page.upper().rsplit(".", 1)
        dated = re.fullmatch(rf'\.TH {name} {section} "\w+ \d+, \d+" "Fiolargu (.*)"', head)
        yield f"the version of {page}", dated and dated[1], version()
    yield "the version of the last changes", re.search(r"^## (\S+)", text_of("CHANGELOG.md"), re.M)[1], version()


def surprises():
    """What surprised readers stands where they look first."""
    front = text_of("man", "scand-protocol.7").partition(".TS")[0]
    yield "the deadlock, before the frames", "Read while you write." in front, True
    front = manual_of("scand").partition(".SH DESCRIPTION")[2].partition(".PP")[0]
    yield "how many connections, in the first paragraph", ("in its whole life" in front, "scand.socket" in front), (True, True)
    for program in PROGRAMS:
        statuses = re.search(r"^\.SH EXIT STATUS\n((?:(?!\.SH).*\n)*)", manual_of(program), re.M)[1]
        yield f"statuses of {program}", re.findall(r"^\.TP\n\.B (\d+)", statuses, re.M), ["0", "1", "2", "127"]


TESTS = (options, commands, conflicts, words_in_bash, pages, surprises, examples, versions)
