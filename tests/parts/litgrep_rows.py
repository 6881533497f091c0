"""`litgrep`: a table of files, words and inputs, each with the output, messages and status that it must give."""

from support.programs import cut_to, run_in_folder

NO_PATTERN = b"litgrep: no pattern given\n"
NO_TEXT = b"litgrep: a word is not UTF-8\n"
UNNAMED = b"litgrep: caf\\xe9: cannot be read\n"
NAMES = {"f": b"cat\n", "caf\udce9": b"1 cat\n", "g": b"2 cat\n"}
MISSING = b"litgrep: missing: cannot be read\n"

# Each row: files by name, the words of litgrep, standard input; standard output, standard error, status. Words name files
# of the folder. A file that is None is a folder. Where standard error ends in "...", only its beginning is compared.
GREPS = [
    ({}, ["-F", "cat"], b"cat\ndog\nconcat", b"cat\nconcat\n", b"", 0),
    ({}, ["a\nb"], b"xa\nc\nb", b"xa\nb\n", b"", 0),
    ({}, [""], b"x\n", b"x\n", b"", 0),
    ({}, ["a\n"], b"b\n\nc", b"b\n\nc\n", b"", 0),
    ({}, ["z"], b"", b"", b"", 1),
    ({}, ["z"], b"x\n", b"", b"", 1),
    ({}, ["\xff"], b"\xc3\xbf\n\xff\n", b"\xc3\xbf\n", b"", 0),
    ({}, ["--", "-F"], b"a-F\n", b"a-F\n", b"", 0),
    ({}, ["\n" * 4096], b"x\n", b"", b"litgrep: patterns refused (2)\n", 2),
    ({}, ["\n" * 4095], b"x\n", b"x\n", b"", 0),
    ({}, ["a" * 4096], b"x\n", b"", b"litgrep: patterns refused (3)\n", 2),
    ({}, ["\n".join(map(str, range(1025)))], b"x\n1024\n", b"1024\n", b"", 0),
    ({}, ["-x", "\n".join(map(str, range(4096)))], b"x\n4095\n4096\n", b"4095\n", b"", 0),
    ({}, ["-i", "\n".join(map(str, range(1024))) + "\n7\n9"], b"12\n", b"12\n", b"", 0),
    ({}, ["cat"], b"\0cat\r\n\r\n", b"\0cat\r\n", b"", 0),
    ({}, [], b"", b"", NO_PATTERN, 2),
    ({}, ["-F"], b"", b"", NO_PATTERN, 2),
    ({}, ["-F", "-c"], b"", b"", NO_PATTERN, 2),
    ({}, ["-z", "a"], b"a\n", b"", b"error: unexpected argument '-z' found...", 2),
    ({}, ["--help"], b"", b"", b"litgrep writes the lines...", 2),
    ({}, [b"\xff"], b"", b"", NO_TEXT, 2),
    # words that are not UTF-8: a file to search is passed over, any other word ends the run
    (NAMES, ["cat", "f", b"caf\xe9", "g"], b"", b"f:cat\ng:2 cat\n", UNNAMED, 2),
    (NAMES, ["-n", b"caf\xe9", "-e", "cat", "f"], b"", b"f:1:cat\n", UNNAMED, 2),
    (NAMES, ["-s", "-c", "cat", "f", b"caf\xe9"], b"", b"f:1\n", b"", 2),
    (NAMES, ["-q", "cat", b"caf\xe9", "f"], b"", b"", UNNAMED, 0),
    (NAMES, ["cat", b"caf\xe9"], b"cat\n", b"", UNNAMED, 2),
    (NAMES, ["cat", b"caf\xe9", "-", b"caf\xe9"], b"3 cat\n", b"(standard input):3 cat\n", UNNAMED * 2, 2),
    ({}, ["cat", "--", b"-\xe9", b"--\xe9"], b"", b"", b"litgrep: -\\xe9: cannot be read\nlitgrep: --\\xe9: cannot be read\n", 2),
    ({}, ["cat", b"a\\b \xc3\xa9\xff"], b"", b"", b"litgrep: a\\\\b \\xc3\\xa9\\xff: cannot be read\n", 2),
    ({"f": b"cat\n"}, ["cat", "f", b"\xff" * 100000], b"", b"f:cat\n", b"litgrep: " + b"\\xff" * 100000 + b": cannot be read\n", 2),
    ({"caf\\xe9": b"cat\n"}, ["cat", "caf\\xe9"], b"", b"cat\n", b"", 0),
    *(({"f": b"cat\n"}, words, b"", b"", NO_TEXT, 2) for words in (
        [b"\xff", "f"], ["-e", b"\xff", "f"], ["-e", b"-\xff", "f"], [b"-e\xff", "f"], [b"-ie\xff", "f"], ["--regexp", b"\xff"],
        [b"--regexp=\xff", "f"], ["-e", "cat", "-f", b"\xff", "f"], [b"-f\xff", "f"], ["cat", b"-\xff", "f"], ["cat", b"--\xff", "f"],
        ["cat", "f", b"-n\xff"], ["-e", "cat", "-e", "--", b"-\xff"], ["--", b"\xff", "f"],
    )),
    ({}, ["-z", b"\xff"], b"", b"", b"error: unexpected argument '-z' found...", 2),
    ({}, ["-F", "-e", "cat", "--help", b"\xff"], b"", b"", b"litgrep writes the lines...", 2),
    # long spellings
    ({}, ["--count", "--ignore-case", "--regexp=CAT"], b"cat\n", b"1\n", b"", 0),
    ({"-v": b"dog\n"}, ["--line-number", "--regexp", "-n", "--file", "-v"], b"a-n\ndog\n", b"1:a-n\n2:dog\n", b"", 0),
    ({"p": b"a\n"}, ["--files-with-matches", "--fixed-strings", "--file=p"], b"a\n", b"(standard input)\n", b"", 0),
    ({"f": b"a\n"}, ["--quiet", "--no-messages", "a", "none", "f"], b"", b"", b"", 0),
    ({}, ["--invert-match", "--line-regexp", "a"], b"a\nab\n", b"ab\n", b"", 0),
    ({}, ["--regexp="], b"a\n", b"a\n", b"", 0),
    ({}, ["--regexp==a"], b"=a\na\n", b"=a\n", b"", 0),
    ({}, ["--", "--count"], b"a--count\n", b"a--count\n", b"", 0),
    # the flags
    ({}, ["-F", "-n", "cat"], b"cat\ndog\nconcat", b"1:cat\n3:concat\n", b"", 0),
    ({}, ["-x", "-e", "cat"], b"concat\ncat\n", b"cat\n", b"", 0),
    ({}, ["-x", "-e", ""], b"\na\n", b"\n", b"", 0),
    ({}, ["-x", "-v", "-e", ""], b"\na\n", b"a\n", b"", 0),
    ({}, ["-v", "-e", ""], b"\na\n", b"", b"", 1),
    ({}, ["-x", "-i", "-e", "Cat", "-e", ""], b"CAT\n\ncats\n", b"CAT\n\n", b"", 0),
    ({"f": b"Cat\nx\n", "g": b""}, ["-c", "-v", "-i", "-e", "CAT", "f", "g"], b"", b"f:1\ng:0\n", b"", 0),
    ({}, ["-n", "-c", "-e", "a"], b"a\n", b"1\n", b"", 0),
    ({}, ["-c", "a"], b"b\n", b"0\n", b"", 1),
    ({"f": b"a\na\n"}, ["-c", "-l", "-e", "a", "f"], b"", b"f\n", b"", 0),
    ({"f": b"a\n", "g": b"b\n"}, ["-l", "a", "f", "g"], b"", b"f\n", b"", 0),
    ({"f": b"a\n", "g": b"b\n"}, ["-lv", "a", "f", "g"], b"", b"g\n", b"", 0),
    ({}, ["-q", "-l", "-c", "-n", "a"], b"a\n", b"", b"", 0),
    ({}, ["-l", "-e", "a", "-"], b"a\n", b"(standard input)\n", b"", 0),
    ({"f": b"a\nb\n"}, ["-n", "-v", "b", "f", "-"], b"c", b"f:1:a\n(standard input):1:c\n", b"", 0),
    ({"f": b"b\na\n", "g": b"a"}, ["-nn", "a", "f", "g"], b"", b"f:2:a\ng:1:a\n", b"", 0),
    ({"f": b"A\xe9\xc9\n"}, ["-i", "a", "f"], b"", b"A\xe9\xc9\n", b"", 0),
    # words: options after operands, `--`, `-`, and arguments in the option's own word
    ({"f": b"cat\n"}, ["cat", "f", "-n"], b"", b"1:cat\n", b"", 0),
    ({"f": b"-n\n"}, ["--", "-n", "f"], b"", b"-n\n", b"", 0),
    ({"-n": b"a\n"}, ["a", "--", "-n"], b"", b"a\n", b"", 0),
    ({"-": b"b\n"}, ["-f", "-", "-e", "-"], b"a-\nb\nc\n", b"a-\nb\n", b"", 0),
    ({}, ["-e=cat"], b"cat\n=cat\n", b"=cat\n", b"", 0),
    ({}, ["-ne=cat"], b"cat\n=cat\n", b"2:=cat\n", b"", 0),
    ({"=p": b"cat"}, ["-f=p", "-ecow"], b"cat\ncow\n", b"cat\ncow\n", b"", 0),
    ({}, ["-ea=b"], b"a=b\nab\n", b"a=b\n", b"", 0),
    ({}, ["--", "-e=a"], b"-e=a\n-e==a\n", b"-e=a\n", b"", 0),
    ({}, ["-e", "a", "-e", "b"], b"a\nb\nc\n", b"a\nb\n", b"", 0),
    ({}, ["-e", "-n", "-ne", "--"], b"a\n-n\n--\n", b"2:-n\n3:--\n", b"", 0),
    ({"-p": b"cat\n"}, ["-f", "-p", "-e", "-=", "--", "-"], b"cat\n-=\nb\n", b"cat\n-=\n", b"", 0),
    ({}, ["--", "-e", "-"], b"a-e\nb\n", b"a-e\n", b"", 0),
    # many words at once, short and long spellings of options, and arguments that look like options
    ({"f": b"x\n=CAT\n", "g": b"a-b\ny\n", "-q": b"DOG\nz\n", "p": b"dog\n"},
     ["f", "-nnF", "-i", "-e=cat", "g", "-f", "p", "-ve", "-", "--", "-q"], b"", b"f:1:x\ng:2:y\n-q:2:z\n", b"", 0),
    ({"-e": b"dog\n", "g": b"cow\n", "-=": b"a-N\nx--\n-=X\n-F\nplain\nDOG\nCow\n--n\n- E\n"},
     ["-e", "-n", "-ie", "--", "-e", "-", "-e", "-=x", "-f", "-e", "-f", "g", "-e-f", "-v", "--", "-e", "-="], b"", b"-=:plain\n", b"", 0),
    ({"-e": b"dog\n", "g": b"cow\n", "-=": b"a-N\nx--\n-=X\n-F\nplain\nDOG\nCow\n- E\n"},
     ["-e", "-n", "-ie", "--", "-e", "-=x", "-f", "-e", "-f", "g", "-e-f", "-v", "--", "-e", "-="], b"", b"-=:plain\n-=:- E\n", b"", 0),
    ({"-v": b"dog\n", "p": b"cow\n", "--quiet": b"x-N\n--FILE\na=b\nDOG\nCow\nnone\n"},
     ["--count", "--regexp=-n", "--regexp", "--file", "--ignore-case", "--file", "-v", "--regexp==", "--file=p", "--", "--quiet"],
     b"", b"5\n", b"", 0),
    ({}, ["-xclqs", "", "-"], b"a\n\n", b"", b"", 0),
    ({}, ["-xclqs", "", "-"], b"a\n", b"", b"", 1),
    # pattern files
    ({"empty": b""}, ["-f", "empty"], b"a\n", b"", b"", 1),
    ({"empty": b""}, ["-v", "-f", "empty"], b"a\n", b"a\n", b"", 0),
    ({"p": b"cat\n", "q": b"\n"}, ["-x", "-f", "p", "-f", "q"], b"cat\n\nb\n", b"cat\n\n", b"", 0),
    ({"p": b"\xff\n\0"}, ["-f", "p"], b"a\xff\nb\0\nc\n", b"a\xff\nb\0\n", b"", 0),
    ({"p": b"a"}, ["-f", "p", "-e", "b", "-"], b"a\nb\nc\n", b"a\nb\n", b"", 0),
    ({}, ["-s", "-f", "none", "-e", "a"], b"a\n", b"", b"litgrep: none: cannot be read\n", 2),
    ({"p": None}, ["-f", "p"], b"a\n", b"", b"litgrep: p: cannot be read\n", 2),
    ({"big": b"\n" * 4097}, ["-f", "big"], b"a\n", b"", b"litgrep: patterns refused (2)\n", 2),
    ({"big": b"\n" * 1052673}, ["-f", "big"], b"a\n", b"", b"litgrep: patterns refused (7)\n", 2),
    ({"big": b"a" * 4096}, ["-f", "big", "-f", "none"], b"a\n", b"", b"litgrep: patterns refused (3)\n", 2),
    ({}, ["-f", "none", "-e", "a" * 4096], b"", b"", b"litgrep: patterns refused (3)\n", 2),
    # files that are missing, and that are folders
    ({"good": b"cat\n"}, ["-q", "-e", "cat", "missing", "good"], b"", b"", MISSING, 0),
    ({"good": b"cat\n"}, ["-e", "cat", "missing", "good"], b"", b"good:cat\n", MISSING, 2),
    ({"good": b"cat\n"}, ["-s", "-e", "cat", "missing", "good"], b"", b"good:cat\n", b"", 2),
    ({"good": b"cat\n"}, ["-q", "-e", "cat", "good", "missing"], b"", b"", b"", 0),
    ({"good": b"cat\n"}, ["-q", "-e", "dog", "good", "missing"], b"", b"", MISSING, 2),
    ({"d": None, "f": b"a\n"}, ["a", "d", "f"], b"", b"f:a\n", b"litgrep: d: cannot be read\n", 2),
    ({"d": None}, ["-c", "a", "d"], b"", b"0\n", b"litgrep: d: cannot be read\n", 2),
    ({"d": None}, ["-s", "a", "d"], b"", b"", b"", 2),
    ({"f": b""}, ["-c", "a", "f"], b"", b"0\n", b"", 1),
    ({"f": b"\n"}, ["-n", "", "f"], b"", b"1:\n", b"", 0),
]


def rows():
    """Each row, in a folder with its files."""
    for files, words, stdin, stdout, stderr, status in GREPS:
        got = cut_to(run_in_folder(files, words, stdin), stderr)
        yield f"litgrep {words!r:.60} on {stdin!r:.20}", got, (status, stdout, stderr)


TESTS = (rows,)
