"""What the scripts share: their help, and the program that they run.

    help_asked(words, text)     whether the words of the command line ask for help, which then is printed
    program_of(path, crate)     the path of the program, or the end of the script with a line that says how it is made
"""
import os
import pathlib
import shutil
import signal
import sys

ROOT = pathlib.Path(__file__).resolve().parent.parent
# How `rt` proves and builds the program of a crate.
MADE_BY = {'frostd': '(cd crates/frostd && rt run -- session < stdin)'}


def help_asked(words, text):
    """Prints the text where one of the words asks for help."""
    asked = '--help' in words or '-h' in words
    if asked:
        # A reader that has seen enough of it may go.
        signal.signal(signal.SIGPIPE, signal.SIG_DFL)
        print(text.strip('\n'))
    return asked


def made_by(crate):
    return MADE_BY.get(crate, f'(cd crates/{crate} && rt run < stdin >/dev/null)')


def program_of(path=None, crate='frostd'):
    """The path of a program, which is that of the crate where none is given. The script ends where there is none."""
    path = pathlib.Path(shutil.which(path or '') or path or ROOT / 'crates' / crate / 'out' / crate)
    if path.is_file() and os.access(path, os.X_OK):
        return str(path.resolve())
    sys.exit(f'there is no program {path}; from the top of the repository this proves and makes {crate}: {made_by(crate)}')
