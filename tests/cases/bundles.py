"""Bundles as they arrive: what their sections have, and what is refused for its frame."""
from tests.support.bundles import CHILD
from tests.support.bundles import FILES
from tests.support.bundles import FIRST_LINE
from tests.support.bundles import FRONT
from tests.support.bundles import SAMPLE
from tests.support.bundles import bundle_of
from tests.support.bundles import envelope_of
from tests.support.bundles import section
from tests.support.stage import Stage
from tests.support.stage import compare
from tests.support.verdicts import C1
from tests.support.verdicts import check_faults
from tests.support.verdicts import check_held

# What stands in place of the second section and the end, by the fault. A deposit is read once its
# frame was: U9 is none of the frame.
BACKS = {
    'U1': [
        # A length that is no number, also under a name in other letters.
        b'c.csv 06\nC1,R1\n\nend\n',
        b'C.csv 06\nC1,R1\n\nend\n',
        b'c.csv +6\nC1,R1\n\nend\n',
        b'c.csv  6\nC1,R1\n\nend\n',
        b'c.csv 6 \nC1,R1\n\nend\n',
        b'c.csv 6\r\nC1,R1\n\nend\n',
        b'c.csv 0x6\nC1,R1\n\nend\n',
        # A section that ends before its length, and one that ends after it; and a byte after the
        # end.
        b'c.csv 7\nC1,R1\n\nend\n',
        b'c.csv 5\nC1,R1\n\nend\n',
        b'c.csv 16777216\nC1,R1\n\nend\n',
        b'c.csv 6\nC1,R1\n\nend\n\n'
    ],
    'U2': [b'C.csv 6\nC1,R1\n\nend\n'],
    'U3': [b'c.csv 6\nC1,R1\n\nc.csv 6\nC1,R1\n\nend\n'],
    # Lengths that in 32 or in 64 bits would be 6.
    'U4': [
        b'c.csv 4294967302\nC1,R1\n\nend\n', b'c.csv 18446744073709551622\nC1,R1\n\nend\n',
        b'c.csv 99999999999999999999\nC1,R1\n\nend\n'
    ],
    # A quote that is not closed makes one field of the row, which should have two; and three
    # fields.
    'U9': [b'c.csv 7\n"C1,R1\n\nend\n', b'c.csv 8\nC1,R1,x\n\nend\n'],
}
# What stands below the first line, by the fault.
REST = {
    'U1': [b'c.csv 0\n\nend\n', b'end\n'],
    'U4': [b'envelope.json 16777217\n', b'c.csv 16777217\n']
}
# As many empty sections as a bundle has, what follows them, and the fault. The empty envelope is
# none.
EMPTY = FIRST_LINE + b'envelope.json 0\n\n' + b''.join(b's%d 0\n\n' % at for at in range(1, 64))
AFTER_MOST = {'U5': b'end\n', 'U4': b's64 0\n\nend\n', 'U3': b's63 0\n\nend\n'}

# Nine sections below an envelope, of bytes that look like lines of a bundle or are no text.
NINE = (
    b'a 4\nend\n\nb.csv 10\nc.csv 1\nx\n\nc-d 1\n\n\ne_f 2\n\n\n\n0 1\n\0\n1.2 2\n\xff\xfe\n'
    b'zzzzzzzzzzzzzzzzzzzzzzzzzzzzzzzz 7\nC1,R1\r\n\nend 16\nescrow-bundle 1\n\ng 10\n0123456789\n'
    b'end\n'
)
# The same with a letter of two bytes where they are no text, and with fields of one and two line
# ends for the sections of just these.
READABLE = NINE.replace(b'\xff\xfe', b'\xc3\xa9').replace(b'c-d 1\n\n\ne_f 2\n\n\n\n',
                                                          b'c-d 3\n"\n"\ne_f 4\n"\n\n"\n')
OTHERS = {
    'a': CHILD,
    'b.csv': CHILD,
    'c-d': FILES['a'],
    'e_f': FILES['b.csv'],
    'end': CHILD,
    'g': FILES['end']
}
# The objects of the sections, and how many child rows have no parent row, with the one and with the
# other tables. The table of the first section is t0.
SAME = ('host \0: t4 name=\0', 'domain é: t5 name=é', 'idn C1: t6 id=C1 clID=R1')
READ = (
    (FILES, ('registrar end: t0 id=end', 'contact c.csv 1: t1 id=c.csv 1', 'contact x: t1 id=x',
             *SAME, 'nndn escrow-bundle 1: t7 aName=escrow-bundle 1'), 3),
    (FILES | OTHERS, ('registrar \n: t2 id=\n', 'contact \n\n: t3 id=\n\n', *SAME,
                      'nndn 0123456789: t8 aName=0123456789'), 4),
)


def test_frames_of_other_forms(stage: Stage) -> None:
    """Frames of other forms are refused."""
    check_faults(stage, [(it, front + it, fault)
                         for front, told in ((FRONT, BACKS), (FIRST_LINE, REST))
                         for fault, texts in told.items() for it in texts])


def test_each_beginning_of_a_bundle(stage: Stage) -> None:
    """Each beginning of a bundle is refused, and the whole is not."""
    compare('bytes of the sample', '228', f'{len(SAMPLE)}')
    check_faults(stage,
                 [(f'the first {count} bytes', SAMPLE[:count], 'U1') for count in range(228)])
    check_held(stage, 'the sample', SAMPLE, [C1])


def test_as_many_sections_as_there_may_be(stage: Stage) -> None:
    """Sixty-four sections, and no more."""
    check_faults(stage, [(f'64 sections and {after}', EMPTY + after, fault)
                         for fault, after in AFTER_MOST.items()])
    files = {'s1': ('contact', 'parent', ('id',))
             } | {f's{at}': ('contact', 'child', ('id', 'text'))
                  for at in range(2, 64)}
    rows = {
        file: f'C1,{file}\n' if role == 'child' else 'C1\n'
        for file, (_, role, _) in files.items()
    }
    body = bundle_of(envelope_of(files),
                     b''.join(section(file, row.encode()) for file, row in rows.items()))
    # (The table of the file s2 is t1. Child rows are in the order of the names of their tables.)
    children = [
        f't{at} id=C1 text=s{at + 1}' for at in sorted(range(1, 63), key=lambda at: f't{at}')
    ]
    check_held(stage, '64 sections', body, ['; '.join(['contact C1: t0 id=C1', *children])])


def test_the_longest_body(stage: Stage) -> None:
    """The longest body, and a longer one."""
    check_faults(stage, [(f'{count} letters', b'e' * count, fault)
                         for count, fault in ((16_777_216, 'U1'), (16_777_217, 'U4'))])


def test_sections_that_look_like_lines_of_a_bundle(stage: Stage) -> None:
    """Sections that look like lines of a bundle, or are no text, are read by their lengths."""
    whole = FIRST_LINE + b'envelope.json 2\n{}\n' + NINE
    compare('bytes of the ten sections', '183', f'{len(whole)}')
    # (The frame is read to its end: an envelope without an id is refused, and then a row that is no
    # text.)
    declared = FIRST_LINE + section('envelope.json', envelope_of(FILES)) + NINE
    check_faults(stage, [('ten sections', whole, 'U6'), ('ten declared sections', declared, 'U9')])
    for files, objects, orphans in READ:
        body = FIRST_LINE + section('envelope.json', envelope_of(files)) + READABLE
        of_parents = ' '.join(it for it in files if files[it] != CHILD)
        check_held(stage, f'sections, of which these are of parent tables: {of_parents}', body,
                   objects, orphans=orphans)
