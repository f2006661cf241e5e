"""What the script `dispatcher` at the top does with its words."""
from __future__ import annotations

import datetime
import os
import shutil
import subprocess
import sys

from dispatch_tools.dev.program import NotBuilt, Repository

# The words of each command.
COMMANDS = {
    'run': 'DIR FEED..',
    'serve': '[--new] DIR STORE FEED..',
    'text': 'DIR STORE FEED..',
    'check': 'DIR TEXT',
    'gen': 'NUMBER TRAINS',
    'follow': 'DIR TEXT',
    'window': 'DIR TEXT FROM TO BUDGET',
    'rules': 'DIR TEXT RULE BUDGET',
    'journey': 'DIR TEXT FROM TO AFTER',
}

# What each command does, for people.
ABOUT = {
    'run': 'answers feeds to their end, and prints the text of the run',
    'serve': 'answers feeds while they grow, and keeps the day in the folder STORE',
    'text': 'prints the text of the run that STORE holds',
    'check': 'judges the text of a run from scratch',
    'gen': 'makes a day of TRAINS trains from a number, and prints a summary',
    'follow': 'prints the timetable after the journal of a text',
    'window': 'plans a stretch of time, by a tree of at most BUDGET nodes',
    'rules': 'compares a waiting rule (never, always or seconds) with a plan',
    'journey': 'prints how a passenger travels from stop FROM to stop TO',
}

# The options, each with a value that may stand, and those that take none.
OPTIONS = {
    '--penalty': '3600',
    '--plans': '400',
    '--batch': '16',
    '--boards': '4,2',
    '--workers': '4',
    '--at': '12',
    '--held': '5,6',
    '--minimal': '60000',
    '--changes': '4',
    '--event-columns': 'id,periodic-id,type,time,weight,stop',
    '--activity-columns': 'id,periodic-id,type,tail,head,lower,upper,weight',
    '--event-delays': 'Delays-Events.giv',
    '--activity-delays': 'Delays-Activities.giv',
}
FLAGS = ['--solve']


def usage() -> str:
    """One line with all commands, `serve` and `text` too."""
    return 'usage: dispatcher ' + ' | '.join(f'{name} {words}' for name, words in COMMANDS.items()) + ' | test | --version'


def help_page() -> str:
    """All commands and options."""
    widest = max(len(f'{name} {words}') for name, words in COMMANDS.items())
    lines = [usage(), '', "The dispatcher's server keeps a railway's timetable while feeds report delays.", '']
    lines += [f'  {name + " " + words:{widest}}  {ABOUT[name]}' for name, words in COMMANDS.items()]
    lines += [f'  {"test":{widest}}  tests the tools, the stored runs and the examples, without a proof',
              f'  {"--version":{widest}}  says which commit and which toolchain this is, and whether the program is proved', '',
              'Options, anywhere behind the command, with = or as two words:', '']
    lines += [f'  {option}={value}' for option, value in OPTIONS.items()] + [f'  {flag}' for flag in FLAGS]
    lines += ['', 'docs/COMMANDS.md has their values, the statuses and the limits.']
    return '\n'.join(lines)


def joined(words: list[str]) -> list[str]:
    """The words with each option and its value as one word, as the program takes them."""
    left = iter(words)
    changed = []
    for word in left:
        value = next(left, None) if word in OPTIONS else None
        changed.append(word if value is None else f'{word}={value}')
    return changed


def told_by(*words: str) -> str:
    """The first line that a command prints, or nothing where it fails."""
    if shutil.which(words[0]) is None:
        return ''
    done = subprocess.run(words, capture_output=True, text=True, check=False)
    return done.stdout.splitlines()[0] if done.returncode == 0 and done.stdout else ''


def version(repository: Repository) -> str:
    """The commit, the toolchain, and what is known of the program."""
    top = str(repository.top)
    commit = told_by('git', '-C', top, 'rev-parse', '--short=12', 'HEAD') or 'no commit known'
    changed = ', with changes' if told_by('git', '-C', top, 'status', '--porcelain') else ''
    toolchain = told_by('rt', 'version') or 'no `rt` on the path'
    if repository.is_proved():
        built = datetime.datetime.fromtimestamp(repository.proved.stat().st_mtime).strftime('%Y-%m-%d %H:%M')
        since = '' if repository.is_proved_of_these_sources() else '; sources have changed since'
        program = f'proved, built {built}{since}'
    else:
        program = 'not proved' + ('; built without proofs' if repository.is_kept() else '; not built')
    return f'dispatcher {commit}{changed}\ntoolchain {toolchain}\nprogram {program}'


def say(line: str) -> None:
    print(f'dispatcher: {line}', file=sys.stderr, flush=True)


def run_program(repository: Repository, words: list[str]) -> int:
    """Becomes the program: the proved one, or else the one without proofs."""
    if repository.is_proved():
        os.execv(repository.proved, [str(repository.proved), *words])
    try:
        program = repository.built_without_proofs(say)
    except NotBuilt as error:
        say(str(error))
        return 127
    say('this program is not proved')
    os.execv(program, [str(program), *words])


def main(words: list[str]) -> int:
    repository = Repository()
    if words[:1] == ['test']:
        from dispatch_tools.dev.quick import main as test
        return test(words[1:])
    if '--help' in words or '-h' in words:
        print(help_page())
        return 0
    if words == ['--version']:
        print(version(repository))
        return 0
    if not words:
        print(usage(), file=sys.stderr)
        return 2
    return run_program(repository, joined(words))
