"""What a command does where a call is refused: what it does undisturbed, or the fault after a
beginning of what it prints. The same again, undisturbed, gives what it gives at first, and leaves
the same rows. The fault says what is refused: S1 a call of the database's files, S2 memory."""
from collections.abc import Callable

from tests.support.formats import KINDS
from tests.support.stores import REPORTS
from tests.support.stores import rows
from trials.sweeping.refusals import Said
from trials.sweeping.refusals import Sweep
from trials.sweeping.releases import Parts
from trials.sweeping.releases import Release
from trials.sweeping.releases import Swept
from trials.sweeping.releases import Unkept


def stops(said: Said, whole: Said, fault: str) -> bool:
    """Whether a run did what it does undisturbed, or ended with the fault after a beginning of what
    it prints."""
    return (said == whole or said[0] == 3 and said[2] == f'{fault}\n'
            and whole[1].startswith(said[1]))


def running(sweep: Sweep, *words: str) -> Callable[..., Said]:
    """What runs a command on a store."""
    return lambda store, **refused: sweep.run(words[0], '--store', store, *words[1:], **refused)


def over_commands(sweep: Sweep, release: Release) -> None:
    over_init(sweep, release, 'S2')
    over_take(sweep, release, 'S2')
    for report in REPORTS:
        over_reading(sweep, release, 'S2', 'report', report)
    for kind in KINDS:
        over_reading(sweep, release, 'S2', 'export', kind)


def over_init(sweep: Sweep, release: Release, fault: str) -> None:
    play, is_there = running(sweep, 'init', '--manifest', release.manifest), (3, '', 'S3\n')

    def is_right(said: Said, again: Said) -> bool:
        if said == release.listed:
            return again == is_there
        # Where a sync fails it is open whether the commit stands: the store may be there.
        return (said == (3, '', f'{fault}\n')
                and (again == release.listed or fault == 'S1' and again == is_there))
    sweep.refuse_over(f'init, {release.name}', fault, None, play, play, is_right, release.is_whole)


def over_take(sweep: Sweep, release: Release | Unkept, fault: str) -> None:
    play = running(sweep, 'take', release.deposits)

    def is_right(said: Said, afterwards: tuple) -> bool:
        return stops(said, release.lines, fault) and afterwards == (release.lines, True)
    sweep.refuse_over(f'take, {release.name}', fault, release.fresh, play,
                      lambda store: (play(store), rows(store) == release.told), is_right,
                      release.is_whole)


def over_reading(sweep: Sweep, release: Release | Parts, fault: str, *words: str) -> None:
    play = running(sweep, *words)
    whole = play(release.taken)
    sweep.refuse_over(f'{words[0]} {words[1]}, {release.name}', fault, release.taken, play, play,
                      lambda said, again: stops(said, whole, fault) and again == whole,
                      release.is_whole)


def over_change(sweep: Sweep, release: Swept, fault: str, before: str, *words: str) -> None:
    """A command that changes a store, and once more says what it says then: either way the store is
    the same after it."""
    play = running(sweep, *words)
    with sweep.copied(before) as after:
        whole, repeated, tables = play(after), play(after), rows(after)
    assert whole[0] == repeated[0] == 0, (whole, repeated)

    def is_right(said: Said, afterwards: tuple) -> bool:
        later = (repeated,) if said == whole else (whole, repeated)
        return stops(said, whole, fault) and afterwards in [(it, True) for it in later]
    sweep.refuse_over(f'{words[0]}, {release.name}', fault, before, play,
                      lambda store: (play(store), rows(store) == tables), is_right,
                      release.is_whole or fault == 'S1')


def over_migrate(sweep: Sweep, release: Swept, fault: str, before: str) -> None:
    """A store of version 1 is one of that version after a refusal, or one of this version. Once
    more it is migrated, or S3."""
    play = running(sweep, 'migrate')
    with sweep.copied(before) as after:
        first, whole, tables, repeated = rows(after), play(after), rows(after), play(after)
    assert (whole, repeated) == ((0, 'migrated\n', ''), (3, '', 'S3\n')), (whole, repeated)

    def play_again(store: str) -> tuple[bool, bool, Said, bool]:
        # What is in the log is in the file once a command has opened and closed it.
        with sweep.copied(store) as same:
            sweep.run('report', '--store', same, 'status')
            left = rows(same)
        return left == first, left == tables, play(store), rows(store) == tables

    def is_right(said: Said, afterwards: tuple) -> bool:
        is_left, is_done = (afterwards == it
                            for it in ((True, False, whole, True), (False, True, repeated, True)))
        # Where a sync fails it is open whether the commit stands.
        is_stopped = said == (3, '', f'{fault}\n')
        return is_done if said == whole else is_stopped and (is_left or fault == 'S1' and is_done)
    sweep.refuse_over(f'migrate, {release.name}', fault, before, play, play_again, is_right,
                      release.is_whole or fault == 'S1')
