"""Building the comparison of host calls (tests/host), and archives that stand in for the library's."""
import platform
import shutil
import tempfile

from program import *

ARCHIVE = TOP / 'target' / 'lib' / 'libdurungkilat.a'
COMPARE = TOP / 'tests' / 'host'
NAMES = [f'durungkilat_{call}' for call in ('open', 'predict', 'correct', 'withdraw')]
# The files of the peer that a stand-in is made of, and those that the comparison needs.
STAND_IN = ('rules.c', 'rounds.c', 'host.c', 'stand_in.c')
RULES = (*STAND_IN[:3], 'runs.c')
# What stands before the names of the tools: for this machine, and for x86-64, which the archive is for.
HERE_TOOLS, X86_TOOLS = '', '' if platform.machine() == 'x86_64' else 'x86_64-linux-gnu-'


def missing_tool():
    """The name of a tool that is needed for the archive and is not there; none if all are."""
    return next((name for name in (f'{X86_TOOLS}gcc', 'gcc') if shutil.which(name) is None), None)


def gcc(tools, *words):
    subprocess.run([f'{tools}gcc', '-O3', '-std=c11', '-Wall', '-Wextra', '-Werror', '-ffp-contract=off', *words],
                   check=True)


def objects(tools, files, folder):
    """Compiles each file into the folder; the paths of the objects."""
    made = [folder / f'{path.stem}.o' for path in files]
    for path, item in zip(files, made):
        gcc(tools, '-c', path, '-o', item)
    return made


def comparison(tools, folder):
    """The objects of the comparison, all but the library."""
    rules = folder / 'rules'
    rules.mkdir()
    return (objects(tools, sorted(COMPARE.glob('*.c')), folder)
            + objects(tools, [HERE / name for name in RULES], rules))


def link(tools, made, archive, program):
    """Links the comparison with an archive."""
    gcc(tools, '-o', program, *made, archive, '-lm')
    return program


def stand_in(made, archive):
    """An archive of these objects, for this machine, that has the names of the library and no other."""
    whole = archive.with_name('whole.o')
    subprocess.run(['ld', '-r', '-o', whole, *made], check=True)
    subprocess.run(['objcopy', *(f'--keep-global-symbol={name}' for name in NAMES), whole], check=True)
    subprocess.run(['ar', 'rcs', archive, whole], check=True)
    return archive


def compare_with(archive):
    """Compiles the comparison with an archive, or with the peer where none is given; the words that run it."""
    tools = X86_TOOLS if archive else HERE_TOOLS
    OUT.mkdir(parents=True, exist_ok=True)
    with tempfile.TemporaryDirectory(dir=OUT) as room:
        room = pathlib.Path(room)
        (room / 'peer').mkdir()
        if archive is None:
            archive = stand_in(objects(tools, [HERE / name for name in STAND_IN], room / 'peer'), room / 'stand_in.a')
        program = link(tools, comparison(tools, room), archive, room / 'compare').rename(OUT / 'compare')
    return [program] if tools == HERE_TOOLS else [TOP / 'programs' / 'run', program]
