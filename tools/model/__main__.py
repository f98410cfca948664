"""Usage, with tools/ on Python's path or as the folder: python3 -m model WORD < FILE, or with a FILE behind the WORD.

    explain HISTORY   why each event of a dump is forced, allowed or neither
    audit HISTORY     the verdict on a dump
    run SCENARIO      the report of a scenario
    dump SCENARIO     the dump of its history, in the canonical order
"""
import pathlib
import sys

from .definitions import verdict
from .explain import explain
from .scenario import Canonical, Course
from .texts import Faulty, dump_of, events_of, scenario_of


def main(words: list[str]) -> int:
    if len(words) not in (1, 2) or words[0] not in ('explain', 'audit', 'run', 'dump'):
        print(__doc__, file=sys.stderr)
        return 2
    try:
        text = pathlib.Path(words[1]).read_bytes() if words[1:] else sys.stdin.buffer.read()
    except OSError as error:
        print(f'cannot read {words[1]}: {error.strerror}' if words[1:] else f'cannot read: {error.strerror}', file=sys.stderr)
        return 4
    try:
        if words[0] == 'explain':
            print('\n'.join(explain(events_of(text))))
        elif words[0] == 'audit':
            print(verdict(events_of(text)), end='')
        else:
            course = Course(scenario_of(text), Canonical())
            print(course.report() if words[0] == 'run' else dump_of(list(course.h)).decode(), end='')
    except Faulty as fault:
        print(f'faulty input: {fault}', file=sys.stderr)
        return 3
    return 0


if __name__ == '__main__':
    sys.exit(main(sys.argv[1:]))
