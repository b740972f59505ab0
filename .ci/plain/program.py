"""The program: it reads a script on standard input and prints its transcript, or what is told of it."""
import json
import sys

from .load import load
from .script import DECIMAL, BadLine, LimitPassed, words_of
from .world import World

USAGE = 'usage: plain.py [run | report | load N]'
DONE, BAD_WORDS, BAD_LINE, PASSED_LIMIT = 0, 2, 3, 7
INPUT_MOST, INPUT_LIMIT = 67108864, 1
LINES_MOST, LINES_LIMIT = 1048576, 2
LINE_MOST, LINE_LIMIT = 34603008, 3


class Run:
    """A script that is run line by line: the world behind it, and the status, with the line that stops it."""

    def __init__(self, script):
        self.script = script
        self.world = World()
        self.number = 0
        self.status = DONE

    def lines(self):
        """The lines of its transcript."""
        try:
            for line in self.read_lines():
                words = words_of(line)
                yield from self.world.run(words) if words else ()
        except BadLine as fault:
            yield self.stop(BAD_LINE, fault.code)
        except LimitPassed as fault:
            yield self.stop(PASSED_LIMIT, fault.limit)

    def stop(self, status, code):
        self.status = status
        return 'stop %d %d %d' % (status, self.number, code)

    def read_lines(self):
        """The lines of the script, up to the first byte past a limit."""
        begin = 0
        while begin < len(self.script):
            self.number += 1
            end = self.script.find(b'\n', begin)
            end = len(self.script) if end < 0 else end
            self.check_limits(begin, end)
            yield self.script[begin:end]
            begin = end + 1

    def check_limits(self, begin, end):
        """A line's end is a byte of the script, and not of the line."""
        passed = [(begin, LINES_LIMIT)] if self.number > LINES_MOST else []
        passed += [(INPUT_MOST, INPUT_LIMIT)] if min(end + 1, len(self.script)) > INPUT_MOST else []
        passed += [(begin + LINE_MOST, LINE_LIMIT)] if end - begin > LINE_MOST else []
        if passed:
            raise LimitPassed(min(passed)[1])


def transcript(script):
    """The lines of the transcript of a script."""
    return Run(script.encode()).lines()


def report(run):
    """What is told of a script's run: how many lines its transcript has, and of each table what its history has."""
    lines = list(run.lines())
    if run.status != DONE:
        return lines[-1:]
    tables = [table_report(number, table) for number, table in sorted(run.world.tables.items())]
    return [json.dumps({'lines': len(lines), 'tables': tables}, separators=(',', ':'), sort_keys=True)]


def table_report(number, table):
    history = table.history
    return {'name': table.schema.name, 'rows': len({entry.row for entry in history}), 'scheme': table.schema.scheme,
            'table': number, 'version': len(history)}


def is_load(words):
    return len(words) == 2 and words[0] == 'load' and DECIMAL.fullmatch(words[1]) and int(words[1]) < 2 ** 64


def main(words):
    """Carries out the words, and gives the status."""
    if is_load(words):
        write_lines(load(int(words[1])))
        return DONE
    if words not in ([], ['run'], ['report']):
        print(USAGE, file=sys.stderr)
        return BAD_WORDS
    run = Run(sys.stdin.buffer.read())
    write_lines(report(run) if words == ['report'] else run.lines())
    return run.status


def write_lines(lines):
    for line in lines:
        sys.stdout.write(line + '\n')
    sys.stdout.flush()
