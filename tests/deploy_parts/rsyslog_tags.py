"""deploy/rsyslog: messages tagged by a real rsyslogd, none lost, compared with litgrep; and its program alone."""

import glob
import json
import os
import random
import re
import signal
import socket
import subprocess
import tempfile
import time

from oracles import sessions
from support import clibrary
from support.programs import LITGREP, LITPLAN, TOP, lay_out
from support.servers import SECONDS, free_port

OWN = os.path.join(TOP, "deploy", "rsyslog")
SCRIPT = os.path.join(OWN, "tag_messages.py")
PYTHON = "/usr/bin/python3"
# What Python reads as it starts, and what writes a line then.
NOISE = {"sitecustomize.py": b"import sys; print('a line', file=sys.stderr)\n"}
WORDS = [b"error", b"timeout", b"17 ms", b"disk a,b", b"c\\d", b"caf\xc3\xa9"]
MESSAGES = 100000


class Daemon:
    """rsyslogd with the configuration of deploy/rsyslog, which takes messages on a free port and writes all of them too.
    Python finds the modules of the folder `noise` when it starts, unless it is told not to look."""

    def __init__(self, folder, words=WORDS):
        os.mkdir(f"{folder}/noise")
        lay_out(f"{folder}/noise", NOISE)
        self.folder, self.port = folder, free_port()
        with open(os.path.join(OWN, "fiolargu.conf")) as file:
            text = file.read()
        for written, own in (
            ("/usr/local/share/fiolargu/deploy/rsyslog", OWN), ("/etc/fiolargu/words", f"{folder}/words"),
            ("/var/log/fiolargu.log", f"{folder}/tagged.log"),
            # rsyslogd gives the program no environment.
            ("/usr/bin/python3", f"/usr/bin/env FIOLARGU_LIBRARY={clibrary.LIBRARY} PYTHONPATH={folder}/noise {PYTHON}"),
        ):
            assert written in text, written
            text = text.replace(written, own)
        lay_out(folder, {"words": b"\n".join(words) + b"\n", "rsyslog.conf": f"""
            global(workDirectory="{folder}" maxMessageSize="64k" parser.escapeControlCharactersOnReceive="off")
            module(load="imtcp")
            input(type="imtcp" address="127.0.0.1" port="{self.port}")
            {text}
            template(name="all" type="string" string="%msg%|%$!fiolargu!count%|%$!fiolargu!literals%\\n")
            action(type="omfile" file="{folder}/all.log" template="all")
        """.encode()})
        words = ["rsyslogd", "-n", "-f", f"{folder}/rsyslog.conf", "-i", f"{folder}/pid"]
        self.program = subprocess.Popen(words, stdout=subprocess.DEVNULL, stderr=subprocess.DEVNULL)

    def __enter__(self):
        return self

    def __exit__(self, *_):
        self.program.terminate()
        self.program.wait()

    def send(self, messages):
        """Sends messages, once the daemon listens."""
        deadline = time.monotonic() + SECONDS
        while True:
            try:
                with socket.create_connection(("127.0.0.1", self.port), SECONDS) as peer:
                    return peer.sendall(b"".join(b"<13>Nov 28 12:00:00 host app:%s\n" % text for text in messages))
            except ConnectionRefusedError:
                if time.monotonic() > deadline:
                    raise
                time.sleep(0.05)

    def lines(self, name, count):
        """The lines of a log, once it has so many, or after a long silence."""
        path, size, deadline = os.path.join(self.folder, name), -1, time.monotonic() + SECONDS
        while time.monotonic() < deadline:
            text = b""
            if os.path.exists(path):
                with open(path, "rb") as file:
                    text = file.read()
            if text.count(b"\n") >= count:
                break
            if len(text) != size:
                size, deadline = len(text), time.monotonic() + SECONDS
            time.sleep(0.1)
        return text.splitlines()

    def helpers(self):
        """The processes of the program that tags."""
        found = []
        for path in glob.glob(f"/proc/{self.program.pid}/task/*/children"):
            with open(path) as file:
                found += [int(word) for word in file.read().split()]
        return found


def messages_of(source, count):
    """Messages with and without words, of any case, some with bytes that are not UTF-8."""
    rest = [b"request took 3 ms", b"it's \xff\xfe \"quoted\" \\d", b"c\\dx", b"disk A,b", b"Caf\xc3\xa9", b"Timeout and ERROR, 17 MS", b"ok"]
    levels = [b"info", b"Error", b"debug", b"terror"]
    return [b" %d %s %s" % (number, source.choice(levels), source.choice(rest)) for number in range(count)]


def wanted(text):
    """What a message gets: the number of its hits and its literals."""
    plan = sessions.Plan(WORDS, True)
    hits = plan.hits(text, 0)
    names = [plan.literals[number] for number in dict.fromkeys(number for number, _ in hits)]
    shown = [name.replace(b"\\", b"\\x5c").replace(b",", b"\\x2c") for name in names]
    return b"%d|%s" % (len(hits), b",".join(shown))


def in_order(lines):
    """Lines by the numbers of their messages. Several workers of rsyslogd change the order."""
    return sorted(lines, key=lambda line: int(line.split()[0]))


def piped():
    """100,000 messages: none lost, each with its tags; the tagged messages are the lines that litgrep selects."""
    source = random.Random(35)
    messages = messages_of(source, MESSAGES)
    with tempfile.TemporaryDirectory() as folder, Daemon(folder) as daemon:
        daemon.send(messages)
        got = in_order(daemon.lines("all.log", MESSAGES))
        want = [text + b"|" + wanted(text) for text in messages]
        differ = next((pair for pair in zip(got, want) if pair[0] != pair[1]), None)
        yield "100,000 messages", (len(got), differ), (MESSAGES, None)
        given = b"".join(text + b"\n" for text in messages)
        selected = subprocess.run([LITGREP, "-i", "-f", f"{folder}/words"], input=given, capture_output=True).stdout.splitlines()
        tagged = daemon.lines("tagged.log", len(selected))
        got = in_order(line.partition(b" app:")[2].rpartition(b" [")[0] for line in tagged)
        yield "the lines of litgrep", (len(got), got == selected), (len(selected), True)


def killed():
    """The program is killed in the middle: rsyslogd starts it again, and no message is lost."""
    messages = messages_of(random.Random(36), 20000)
    with tempfile.TemporaryDirectory() as folder, Daemon(folder) as daemon:
        daemon.send(messages[:100])
        yield "messages before", len(daemon.lines("all.log", 100)), 100
        before = daemon.helpers()
        for start in range(100, 20000, 1990):
            daemon.send(messages[start : start + 1990])
            for helper in daemon.helpers():
                os.kill(helper, signal.SIGKILL)
        got = in_order(daemon.lines("all.log", 20000))
        yield "messages", [line.split(b"|")[0] for line in got] == messages, True
        others = [(line, text) for line, text in zip(got, messages) if line != text + b"|" + wanted(text)]
        yield "tags that are wrong", [line for line, text in others if line != text + b"||"], []
        yield f"{len(others)} messages without tags, while no program ran", len(others) < len(messages) // 2, True
        yield "another program", set(before).isdisjoint(daemon.helpers()), True


def without_list():
    """A list that cannot be used: messages are written without tags, and none is lost."""
    messages = [b" %d cat" % number for number in range(30)]
    with tempfile.TemporaryDirectory() as folder, Daemon(folder, [b""]) as daemon:
        daemon.send(messages)
        yield "messages without tags", daemon.lines("all.log", 30), [text + b"||" for text in messages]
        yield "none of them is tagged", daemon.lines("tagged.log", 0), []


def one_pipe():
    """The command of rsyslog, with one pipe for standard output and standard error: the replies are all that comes, also where
    Python would write a line as it starts, or where the list is missing. Otherwise messages are written."""
    with open(os.path.join(OWN, "fiolargu.conf")) as file:
        command = re.search(r'binary="(.*) -i /etc', file.read())[1].split()
    with tempfile.TemporaryDirectory() as folder:
        lay_out(folder, {"words": b"cat\n", **NOISE})
        command[-1] = SCRIPT
        env = {**os.environ, "PYTHONPATH": folder}

        def run(words, fault):
            how = {"input": b'{"msg":"a cat"}\n', "stdout": subprocess.PIPE, "stderr": fault, "timeout": 60}
            done = subprocess.run([*command, words], cwd=folder, env=env, **how)
            return done.returncode, done.stdout

        want = b'{"$!": {"fiolargu": {"count": 1, "literals": "cat"}}}\n'
        yield "one pipe", run("words", subprocess.STDOUT), (0, want)
        yield "one pipe, a list that is missing", run("none", subprocess.STDOUT), (2, b"")
        with tempfile.TemporaryFile() as file:
            yield "a file of its own", run("none", file), (2, b"")
            file.seek(0)
            yield "the message", file.read(), b"tag_messages: none: No such file or directory\n"


def alone():
    """The program by lists, plan files, odd messages, and lists that it cannot use."""
    with tempfile.TemporaryDirectory() as folder:
        lay_out(folder, {"words": b"Cat\n\xff\n", "empty": b"\n"})
        subprocess.run([LITPLAN, "pack", f"{folder}/words", f"{folder}/plan"], check=True, stdout=subprocess.DEVNULL)

        def run(*words, text=b""):
            done = subprocess.run([PYTHON, SCRIPT, *words], cwd=folder, input=text, capture_output=True, timeout=60)
            return done.returncode, [json.loads(line)["$!"]["fiolargu"] for line in done.stdout.splitlines()], done.stderr.decode()

        texts = [rb'{"msg":"a Cat cat"}', b'{"msg":"\xff Cat"}', rb'{"msg":"line\nCat"}', b"Cat", b"{}", b'{"msg":7}', b"7"]
        counts, names = [1, 2, 1, -1, -1, -1, -1], ["Cat", r"\xff,Cat", "Cat", "", "", "", ""]
        want = 0, [{"count": count, "literals": name} for count, name in zip(counts, names)], ""
        for words in ["words"], ["--plan", "plan"]:
            yield f"messages, by {words}", run(*words, text=b"\n".join(texts) + b"\n"), want
        yield "case ignored", run("-i", "words", text=rb'{"msg":"a Cat cat"}'), (0, [{"count": 2, "literals": "cat"}], "")
        for words, want in (
            (["none"], "none: No such file or directory"), (["empty"], "empty: NoLiterals (5): the list has no literals"),
            (["--plan", "words"], "words: BadPlanFile (10): no plan file, or not certified, at byte 0"),
            (["--plan", "plan", "--which", "1"], "plan: NoSuchPlan (14): the plan file has no plan of this number"),
        ):
            yield f"by {words}", run(*words), (2, [], f"tag_messages: {want}\n")
        for words in [], ["words", "--plan", "plan"]:
            status, _, message = run(*words)
            yield f"by {words}", (status, "not both" in message), (2, True)
        status, _, message = run("-i", "--plan", "plan")
        yield "a plan and -i", (status, "-i is for WORDS" in message), (2, True)


def with_library():
    """Each test, where there is a library."""
    if clibrary.is_there("rsyslog_tags"):
        for test in alone, one_pipe, without_list, piped, killed:
            yield from test()


TESTS = (with_library,)
