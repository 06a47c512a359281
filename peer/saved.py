"""The answers to `save` and `load`, counted by the sessions that they meet."""
from images import state_in
from program import *
from reasons import STATES

SAVE, LOAD = 'save', 'load'
COUNTED = 'counts as closed'
TAKEN, REFUSED = 0, 14


def count_save(met, line, record):
    """Counts a save of the record, by the state that is saved."""
    state = record[STATE]
    met[SAVE] += 1
    met[SAVE, STATES[state] if state == state_in(saved_digits(line)) else COUNTED] += 1


def count_load(met, number, before, after):
    """Counts a load, by the states of the records before it and after it."""
    met[LOAD] += 1
    met[LOAD, number, 'on', STATES[before[STATE]]] += 1
    met[LOAD, number, 'leaves', STATES[after[STATE]]] += 1


def print_saved(met):
    print(f'{SAVE}: ' + ', '.join(f'{state} {met[SAVE, state]}' for state in (*STATES, COUNTED)))
    for number, where in ((TAKEN, 'on'), (TAKEN, 'leaves'), (REFUSED, 'on')):
        print(f'{LOAD} {number} {where}: ' + ', '.join(f'{state} {met[LOAD, number, where, state]}' for state in STATES))


def saved_wanted():
    """What a run has to meet."""
    return [*((SAVE, state) for state in (*STATES, COUNTED)),
            *((LOAD, TAKEN, where, state) for where in ('on', 'leaves') for state in STATES),
            *((LOAD, REFUSED, 'on', state) for state in STATES)]
