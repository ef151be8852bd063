"""What job2text and text2job share: their words, their files and how they end."""
import sys

import rumosaywe_jobs as jobs


class Trouble(Exception):
    """A file that cannot be read or written, or wrong words."""


def options(usage, known):
    """The options named, each with as many words as it takes, and the files; --help prints the usage."""
    words, named, files = sys.argv[1:], {}, []
    while words:
        word = words.pop(0)
        if word in ("-h", "--help"):
            print(usage)
            sys.exit(0)
        if word in known:
            named[word], words = words[: known[word]], words[known[word] :]
            if len(named[word]) < known[word]:
                raise Trouble(f"{word} takes {known[word]} words")
        elif word.startswith("--"):
            raise Trouble(f"unknown word {word}; --help lists them")
        else:
            files.append(word)
    if len(files) > 2:
        raise Trouble("two files at most; --help says more")
    return named, files + ["-"] * (2 - len(files))


def read_bytes(files):
    if files[0] == "-":
        return sys.stdin.buffer.read()
    with open(files[0], "rb") as file:
        return file.read()


def write_bytes(files, data):
    if files[1] == "-":
        sys.stdout.buffer.write(data)
        sys.stdout.buffer.flush()
        return
    with open(files[1], "wb") as file:
        file.write(data)


def ended(name, main):
    """The status: 0, 1 for what is refused, 2 for trouble."""
    try:
        main()
    except jobs.Refused as why:
        print(f"{name}: {why}", file=sys.stderr)
        return 1
    except (Trouble, OSError) as why:
        print(f"{name}: {why}", file=sys.stderr)
        return 2
    return 0
