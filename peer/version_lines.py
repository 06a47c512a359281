"""Draws texts whose version line names another edition, or that have none, or one that their keywords do not go with."""
from lost_lines import *
from refused_requests import OTHER_VERSIONS

VERSION = b'CCSDS_OEM_VERS = '
# Lines in the place of the version line that do not begin as it has to.
NO_VERSIONS = (b'CCSDS_OEM_VERS', b'CCSDS_OEM_VERS=', b'CCSDS_OEM_VERS =', b'CCSDS_OEM_VERS= ', b'CCSDS_OEM_VERS  = ', b'CCSDS_OEM_VERS\t= ',
               b'CCSDS_OEM_VERS: ', b'CCSDS_OEM_VERS == ', b' CCSDS_OEM_VERS = ', b'\tCCSDS_OEM_VERS = ', b'\xef\xbb\xbfCCSDS_OEM_VERS = ',
               b'XCCSDS_OEM_VERS = ', b'ccsds_oem_vers = ', b'Ccsds_Oem_Vers = ', b'CCSDS_OEM_VER = ', b'CCSDS_OEM_VERSION = ',
               b'CCSDS_OPM_VERS = ', b'CCSDS_OCM_VERS = ', b'OEM_VERS = ', b'CSDS_OEM_VERS = ', b'')


def under(first, wanted, rest=lambda rng, draft: None):
    """A kind with something else in place of the version line; rest spoils the message in other ways too."""
    def draw(rng):
        draft = drafted(rng)
        rest(rng, draft)
        draft.lines[0] = first(rng)
        return draft.text(), wanted
    return draw


def other_version(rng):
    return VERSION + rng.choice(OTHER_VERSIONS)


def some_edition(rng):
    return VERSION + rng.choice(EDITIONS)


def no_version(rng):
    """A line that names some version under another keyword."""
    return rng.choice(NO_VERSIONS) + rng.choice((*EDITIONS, b'4.0', b''))


def spoilt_head(rng, draft):
    """Another line of the head lost, doubled or misspelt."""
    rng.choice((lose, misspell, lambda rng, lines, at: lines.insert(at, lines[at])))(rng, draft.lines, draft.at[rng.choice(KEYWORDS[1:])])


def spoilt_data(rng, draft):
    """Data lines lost, cut or exchanged."""
    draft.lines[draft.first:] = rng.choice((lambda lines: [], lambda lines: lines[::-1] * 2, lambda lines: [line[:-1] for line in lines]))(
        draft.lines[draft.first:])


def spoilt_times(rng, draft):
    for keyword in LAST:
        draft.put(keyword, b'')


def bytes_of(text, wanted):
    """A kind of bytes that are no whole message."""
    return lambda rng: (text(rng), wanted)


def second_version(rng):
    """Another version in the second line."""
    draft = drafted(rng)
    draft.lines.insert(1, other_version(rng))
    return draft.text(), stops_at(1)


def version_below(rng):
    """Another version behind a line that is no version."""
    draft = drafted(rng)
    draft.lines[:1] = [rng.choice((b'', b'COMMENT A', b'CLASSIFICATION = A')), other_version(rng)]
    return draft.text(), stops_at(0)


VERSION_FAULTS = {
    **{f'{version!r} as the version': under(lambda rng, version=version: VERSION + version, NEITHER) for version in OTHER_VERSIONS},
    'another version and a fault of the head': under(other_version, NEITHER, spoilt_head),
    'another version and faults of the data': under(other_version, NEITHER, spoilt_data),
    'another version and wrong times': under(other_version, NEITHER, spoilt_times),
    'another version in the second line': second_version,
    'another version behind another line': version_below,
    'blanks for newlines': lambda rng: (drafted(rng).text().replace(b'\n', b' '), NEITHER),
    **{f'{line!r} before the version': under(lambda rng, line=line: line + rng.choice((*EDITIONS, b'4.0', b'')), stops_at(0))
       for line in NO_VERSIONS},
}
# These are of no edition, or of one that is drawn.
VERSION_TEXTS = {
    'another version alone': bytes_of(lambda rng: other_version(rng) + b'\n', NEITHER),
    'another version without a newline': bytes_of(other_version, NEITHER),
    'a version of no byte without a newline': bytes_of(lambda rng: VERSION, NEITHER),
    'a bare line feed for a version': bytes_of(lambda rng: VERSION + b'\n', NEITHER),
    'another version before no message': bytes_of(lambda rng: other_version(rng) + b'\n' + rng.randbytes(rng.randint(1, 500)), NEITHER),
    'a version cut off': bytes_of(lambda rng: some_edition(rng)[:rng.randint(len(VERSION), len(VERSION) + 2)], NEITHER),
    'the version line without its newline': bytes_of(some_edition, stops_at(0)),
    'the keyword of the version cut off': bytes_of(lambda rng: VERSION[:rng.randint(1, len(VERSION) - 1)], stops_at(0)),
    'no version without a newline': bytes_of(no_version, stops_at(0)),
    'the version line alone': bytes_of(lambda rng: some_edition(rng) + b'\n', stops_at(1)),
    'the version line twice alone': bytes_of(lambda rng: some_edition(rng) + b'\n' + some_edition(rng) + b'\n', stops_at(1)),
    'a version line and comments': bytes_of(lambda rng: some_edition(rng) + b'\nCOMMENT A\nCOMMENT\n', stops_at(3)),
}
