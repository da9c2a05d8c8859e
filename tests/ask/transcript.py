#!/usr/bin/env python3
# transcript.py TOOL FILE...: runs every './ask ...' that the files show, and fails where the tool
# writes anything else than they show.
#
# A case is an indented line '$ ./ask WORDS', which goes on as in a shell, and below it the output
# with the same indent, up to the first line without it. All cases run in this one process.
# Of every case it also holds:
#   the exit status is, by the first word shown, 1 for another answer than good, 2 for bad use, else 0;
#   bad use writes one line, and that to standard error; all else writes to standard output;
#   a refusal says that the folio stays closed, and has no word of revoking, but for the names of
#   elements that tell where a response breaks.

import contextlib
import io
import re
import shlex
import sys

STATUS = {'good:': 0, 'revoked:': 1, 'unknown:': 1, 'refused,': 1, 'not': 1, 'ask:': 2}


def goes_on(words):
    """Whether a command has more lines: after a backslash, or inside quotes."""
    return words.endswith('\\') or words.count("'") % 2 == 1


def cases(path):
    """The words of each case, and what it shows."""
    with open(path, encoding='utf-8') as file:
        lines = file.read().splitlines()
    at = 0
    while at < len(lines):
        found = re.fullmatch(r'( +)\$ \./ask( .*)?', lines[at])
        at += 1
        if not found:
            continue
        indent, words = found.group(1), found.group(2) or ''
        while goes_on(words):
            words = words[:-1] + lines[at] if words.endswith('\\') else words + '\n' + lines[at]
            at += 1
        shown = []
        while at < len(lines) and re.match(indent + '[^$]', lines[at]):
            shown.append(lines[at][len(indent):])
            at += 1
        yield shlex.split(words), shown


def outcome(tool, code, words):
    """The status of the tool with these words, and what it writes to its two outputs."""
    out, err = io.StringIO(), io.StringIO()
    sys.argv = [tool] + words
    with contextlib.redirect_stdout(out), contextlib.redirect_stderr(err):
        try:
            exec(code, {'__name__': '__main__', '__file__': tool})
            status = 0
        except SystemExit as end:
            status = end.code or 0
        except Exception as error:
            status = f'of an exception, {error!r}'
    return status, out.getvalue().splitlines(), err.getvalue().splitlines()


def outside(shown):
    """The lines of an answer without those that tell where a response breaks."""
    if 'where it breaks' not in shown:
        return shown
    return shown[:shown.index('where it breaks')] + shown[shown.index('asked with'):]


def fault(shown, status, out, err):
    """What is wrong with a case, or nothing."""
    if out + err != shown:
        return 'another output'
    first = shown[0].split()[0] if shown else ''
    if status != STATUS.get(first, 0):
        return f'exit status {status}'
    if (status == 2) != bool(err) or (err and (out or len(err) != 1)):
        return 'not one line to the right output'
    text = '\n'.join(outside(shown))
    if first == 'refused,' and ('The folio stays closed.' not in text or 'revo' in text.lower()):
        return 'a refusal in the wrong words'
    return None


def main(tool, paths):
    with open(tool, encoding='utf-8') as file:
        code = compile(file.read(), tool, 'exec')
    failed = False
    for path in paths:
        count = 0
        for words, shown in cases(path):
            count += 1
            status, out, err = outcome(tool, code, words)
            wrong = fault(shown, status, out, err)
            if wrong:
                failed = True
                print(f'ask: {path}: {wrong}: ./ask {shlex.join(words)}', *out, *err, sep='\n')
        if not count:
            failed = True
            print(f'ask: {path} shows no case')
    return 1 if failed else 0


sys.exit(main(sys.argv[1], sys.argv[2:]))
