"""What the tools in Python have in common."""
import argparse
import ast
import os
import pathlib
import subprocess
import sys
import sysconfig

ROOT = pathlib.Path(__file__).resolve().parent.parent
CRATES = ROOT / "crates"
TOOL = f"tools/{pathlib.Path(sys.argv[0]).name}"


class Mistake(Exception):
    """What a user has to mend, in a line."""


def parser(doc):
    """A parser of the command line, whose help is a tool's docstring."""
    return argparse.ArgumentParser(prog=TOOL, description=doc, formatter_class=argparse.RawDescriptionHelpFormatter)


def sources(crate="*"):
    """The files of a crate, or of all, in order: its code, definitions, laws, proofs and must-fail edits, and nothing that was made of them."""
    return sorted(path for part in ("src", "specs", "proofs", "must-fail") for path in CRATES.glob(f"{crate}/{part}/**/*") if path.is_file())


def built(path, how):
    """A file that another tool makes."""
    if not path.exists():
        raise Mistake(f"{path.relative_to(ROOT)} is missing: {how} builds it")
    return path


def oracle():
    """The program that answers as the original does."""
    return built(ROOT / "oracle/target/release/oracle", "oracle/build")


def library(most):
    """Files of Python's library, one after another, that Python reads too: up to so many bytes."""
    text = b""
    for path in sorted(pathlib.Path(sysconfig.get_paths()["stdlib"]).rglob("*.py")):
        file = path.read_bytes()
        if len(text) + len(file) <= most and file.endswith(b"\n") and not file.startswith(b"\xef\xbb\xbf") and is_python(file):
            text += file
    return text


def is_python(text):
    try:
        ast.parse(text.decode())
    except (SyntaxError, ValueError):
        return False
    return True


def run(main):
    """Runs a tool to the status that it returns. A mistake of the user ends in a line and status 2, not in a traceback."""
    try:
        try:
            status = main()
        finally:
            sys.stdout.flush()
    except KeyboardInterrupt:
        status = 130
    except BrokenPipeError:
        # Who reads has seen enough; what is still to be written goes nowhere.
        os.dup2(os.open(os.devnull, os.O_WRONLY), sys.stdout.fileno())
        status = 141
    except (Mistake, OSError, UnicodeDecodeError, subprocess.CalledProcessError) as error:
        print(f"{TOOL}: {said(error)}", file=sys.stderr)
        status = 2
    sys.exit(status)


def said(error):
    if isinstance(error, OSError) and error.filename:
        return f"{error.filename}: {error.strerror}"
    if isinstance(error, subprocess.CalledProcessError):
        words = error.stderr or ""
        return f"{pathlib.Path(error.cmd[0]).name} failed\n{words if isinstance(words, str) else words.decode()}".rstrip()
    return str(error)
