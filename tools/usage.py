"""The words of a script of this folder: --help prints what it says of itself, and what it has no use for is refused with status 2."""
import os, pathlib, sys


def words(text, least=0, most=0, options=()):
    """The words that the script was given, without those of its options, of which it says this."""
    given = sys.argv[1:]
    plain = [it for it in given if not it.startswith('-')]
    why = next((f'there is no {it}' for it in given if it.startswith('-') and it not in options), '')
    if {'-h', '--help'} & set(given):
        try:
            print(text.strip(), flush=True)
        except BrokenPipeError:
            os.dup2(os.open(os.devnull, os.O_WRONLY), 1)  # who reads has enough, and what is left goes nowhere
        sys.exit()
    if why or not least <= len(plain) <= most:
        why = why or (f'{plain[most]} is a word too many' if len(plain) > most else 'a word is missing')
        name = pathlib.Path(sys.argv[0]).name
        print(f'{name}: {why}; tools/{name} --help tells more', file=sys.stderr)
        sys.exit(2)
    return plain
