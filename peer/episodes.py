"""Draws scripts of calls from episodes, each of which leads to some corner of the rules."""
from running import *
from spoiling import spoilt

# One script in so many steps sessions; the others end soon by a line that is no call.
SESSION_EVERY = 8
S = Running
EPISODES = [S.session, S.session, S.session, S.every_number_of_points, S.floats,
            S.refused_openings, S.far_out, S.nearly_right, S.nearly_right, S.moved_to_bounds,
            S.moved_to_bounds, S.estimate_at_bounds, S.at_tolerance, S.at_tolerance,
            S.at_last_point, S.random_fills, S.every_start, S.host, S.to_the_limit,
            S.while_starting, S.later_in_every_state, S.refused_starts, S.refused_rounds,
            S.starts_headed_out, S.epochs_at_bounds, S.points_at_bounds, S.rounds_at_tolerance,
            S.nearly_starting, S.nearly_starting, S.untrue_held, S.untrue_held, S.untrue_held,
            S.held_while_starting, S.held_before_accepted, S.first_at_tolerance,
            S.several_over_tolerance, S.out_at_some_values, S.out_at_some_values,
            S.several_floats_at_fault, S.floats_at_fault, S.floats_at_fault,
            S.gone_back, S.loaded_in_every_state, S.damaged_images, S.images_nearly_right,
            S.runs, S.runs, S.runs_of_every_number_of_points, S.runs_refused, S.runs_with_floats_at_fault,
            S.allowance_used_up, S.runs_out_of_range, S.runs_from_rest_to_the_bound, S.runs_to_the_last_point]


def session_script(script, index):
    """Episodes up to some length, and at times a line at the end that is no call."""
    rng = script.rng
    if index % 20 == 0:
        script.long_run()
    length = rng.choice((5, 40, 150, 300, 600))
    episodes = rng.sample(EPISODES, len(EPISODES))
    while len(script.script) < length:
        episodes.append(episodes.pop(0))
        episodes[-1](script)
    if rng.random() < 0.7:
        return script.end(b'')
    return script.end(spoilt(script.script[-3:], rng.randrange(U32), rng))


def spoilt_script(script, index):
    """A call or two and a line that is no call."""
    rng = script.rng
    lines = [open_line(*script.opening()), correct_line(script.sample()),
             start_line(*script.centred()), refine_line(script.sample() * 3), why_line(script.sample()),
             fill_line(script.random_record(rng.choice((SETTLED, AWAITING, STARTING)))),
             load_line(script.some_image()[0]), run_line(1, script.sample() * 2)]
    for _ in range(rng.randrange(3)):
        script.make(rng.choice(('predict', 'withdraw', 'save', *lines)))
    return script.end(spoilt(lines, index, rng))


def draw(peer, seed, index):
    """The script of that index, what the peer writes for it, and what the script has met."""
    script = Running(peer, f'{seed}/{index}')
    turn, kind = divmod(index, SESSION_EVERY)
    if kind == 0:
        return session_script(script, turn)
    return spoilt_script(script, turn * (SESSION_EVERY - 1) + kind - 1)
