"""What comes of a run of a program under taskaudit-run: the exit status, and why."""
from collections import namedtuple

WRONG, FOUND, NOT_RECORDED, NO_ANSWER, LATE, NOT_RUN, NO_PROGRAM, INTERRUPTED = 4, 66, 70, 71, 124, 126, 127, 130
# What becomes of a recording, beside yes, no and malformed.
PART_YES, PART, LOST, UNANSWERED, UNAUDITED = 'yes of a part', 'of a part', 'lost', 'without an answer', 'not audited'
# What becomes of a run, beside yes and what becomes of recordings.
TOO_LONG, FAILED, UNRECORDED, RECORDED = 'over the time limit', 'failed', 'without a recording', 'recorded'
FINDINGS = ('no', 'malformed')


class End(Exception):
    """The end of taskaudit-run before the program ran: why, and the exit status."""

    def __init__(self, status, text):
        super().__init__(text)
        self.status = status


class Outcome(namedtuple('Outcome', 'status word reason')):
    """The exit status of a run, what came of it in a word, and what the status stands for."""

    @property
    def is_finding(self):
        """Whether somebody has to look at this run."""
        return self.status != 0 or self.word in (*FINDINGS, PART)


def outcome_of(asked, ended, came):
    """What comes of a run that ended so, and of whose recordings this came."""
    word = next((it for it in FINDINGS if came[it]), None)
    if ended.is_late:
        return Outcome(LATE, word or TOO_LONG, f'the time limit of {asked.timeout:g} s ended it')
    if ended.status and not ended.is_early:
        return Outcome(ended.status, word or FAILED, "the program's own")
    if sum(came.values()) == came[LOST]:
        told = 'nothing was recorded' + ', which --allow-none allows' * asked.allow_none
        return Outcome(0 if asked.allow_none else NOT_RECORDED, UNRECORDED, told)
    if word:
        return Outcome(asked.exit_code, word, 'something was found')
    if came[UNANSWERED]:
        return Outcome(NO_ANSWER, UNANSWERED, 'there is no answer')
    if came[PART_YES] or came[PART] or came[LOST]:
        return Outcome(asked.exit_code, PART, 'a part of the run was recorded')
    word = RECORDED if asked.no_check else 'yes'
    return Outcome(0, word, word)


def counts_in_words(counts):
    return ', '.join(f'{count} {what}' for what, count in counts.items()) or 'none'
