"""What docs/COUNTERS.md and crates/tpm_state/README.md say of TPM 1.2, each by what a software TPM does.

Each function is one point: it is given a TPM that has an owner and no counter, and answers whether the point holds.
"""
import time

from swtpm import (
    AUTHFAIL,
    BAD_COUNTER,
    BAD_LOCALITY,
    DEFEND_LOCK_RUNNING,
    LABEL,
    NOSRK,
    NOTLOCAL,
    NOTRESETABLE,
    OWNER,
    RESOURCES,
    SUCCESS,
    Refused,
    Tpm,
    sha1,
)

MINE, YOURS = sha1(b"mine"), sha1(b"yours")
LAST = 2**32 - 1


def answer(call, *words):
    """SUCCESS, or the number of the refusal."""
    try:
        call(*words)
        return SUCCESS
    except Refused as refused:
        return refused.number


def creation(tpm):
    """a counter is created by who shows the owner's authorization, and by nobody where the TPM has no owner"""
    tried = [answer(tpm.create_counter, MINE, owner) for owner in (YOURS, OWNER)]
    with Tpm() as unowned:
        unowned.enable()
        tried.append(answer(unowned.create_counter, MINE))
    return tried == [AUTHFAIL, SUCCESS, NOSRK]


def increments(tpm):
    """a counter is incremented by who shows its authorization, not the TPM owner's"""
    tpm.create_counter(MINE)
    tried = [answer(tpm.increment_counter, 0, secret) for secret in (YOURS, OWNER, MINE)]
    return tried == [AUTHFAIL, AUTHFAIL, SUCCESS]


def locked(tpm):
    """Whether wrong authorizations come to bar right ones too."""
    tried = [answer(tpm.increment_counter, 0, YOURS) for _ in range(10)]
    barred = tried.count(DEFEND_LOCK_RUNNING)
    tried.append(answer(tpm.increment_counter, 0, MINE))
    return 0 < barred < 10 and tried == [AUTHFAIL] * (10 - barred) + [DEFEND_LOCK_RUNNING] * (barred + 1)


def strangers(tpm):
    """after some wrong authorizations the TPM refuses right ones too, until some time has passed or its next start"""
    tpm.create_counter(MINE)
    anew = locked(tpm)
    tpm.power_on()
    anew = anew and answer(tpm.increment_counter, 0, MINE) == SUCCESS
    later = locked(tpm)
    time.sleep(20)
    return anew and later and answer(tpm.increment_counter, 0, MINE) == SUCCESS


def readers(tpm):
    """anyone reads a counter, from each locality"""
    tpm.create_counter(MINE)
    values = []
    for locality in range(5):
        tpm.locality(locality)
        values.append(tpm.read_counter(0))
    return values == [1] * 5


def room(tpm):
    """there are at least 4 counters: this TPM has 8"""
    tried = [answer(tpm.create_counter, MINE) for _ in range(9)]
    return tried == [SUCCESS] * 8 + [RESOURCES]


def first_value(tpm):
    """a new counter's value is one above the largest of any counter so far, of those too that were released"""
    values = [tpm.create_counter(MINE)[1], tpm.increment_counter(0, MINE), tpm.increment_counter(0, MINE)]
    values.append(tpm.create_counter(YOURS)[1])
    for counter, secret in ((0, MINE), (1, YOURS)):
        tpm.release_counter(counter, secret)
    return values + [tpm.create_counter(MINE)[1]] == [1, 2, 3, 4, 5]


def handles(tpm):
    """a counter has a handle, which is given again after a release, and the label that its creator chose"""
    given = [tpm.create_counter(MINE)[0] for _ in range(3)]
    tpm.release_counter(1, MINE)
    given.append(tpm.create_counter(YOURS)[0])
    return given == [0, 1, 2, 1] and tpm.command("ReadCounter", bytes(4))[2:6] == LABEL


def release(tpm):
    """a counter is released by who shows its authorization, or the TPM owner's, and by nobody else"""
    for _ in range(2):
        tpm.create_counter(MINE)
    tried = [answer(tpm.release_counter, 0, secret) for secret in (YOURS, OWNER, MINE)]
    tried += [answer(tpm.release_counter, 1, secret, "ReleaseCounterOwner") for secret in (MINE, OWNER)]
    return tried + [answer(tpm.read_counter, 0)] == [AUTHFAIL, AUTHFAIL, SUCCESS, AUTHFAIL, SUCCESS, BAD_COUNTER]


def clearing(tpm):
    """where the TPM's owner is cleared all counters are gone, but the largest value so far is kept"""
    tpm.create_counter(MINE)
    tpm.increment_counter(0, MINE)
    tpm.authorized("OwnerClear", b"", b"", OWNER)
    tpm.enable()
    gone = answer(tpm.read_counter, 0)
    tpm.take_ownership()
    return [gone, tpm.create_counter(MINE)] == [BAD_COUNTER, (0, 3)]


def active(tpm):
    """the first that is incremented after a start, not the first created, is the only one until the next"""
    for _ in range(2):
        tpm.create_counter(MINE)
    tried = [answer(tpm.increment_counter, counter, MINE) for counter in (1, 0, 1)]
    tpm.power_on()
    tried += [answer(tpm.increment_counter, counter, MINE) for counter in (0, 1)]
    return tried == [SUCCESS, BAD_COUNTER, SUCCESS, SUCCESS, BAD_COUNTER]


def active_released(tpm):
    """where that one is released none is incremented until the next start, not even a new one of its handle"""
    for _ in range(2):
        tpm.create_counter(MINE)
    tpm.increment_counter(0, MINE)
    tpm.release_counter(0, MINE)
    tpm.create_counter(MINE)
    return [answer(tpm.increment_counter, counter, MINE) for counter in (0, 1)] == [BAD_COUNTER] * 2


def pace(tpm):
    """a TPM may hold increments back that come too fast: this one doesn't"""
    tpm.create_counter(MINE)
    return [tpm.increment_counter(0, MINE) for _ in range(1000)] == list(range(2, 1002))


def wrapping(tpm):
    """after 2^32 - 1 this TPM goes on with 0, by an increment and by a creation"""
    tpm.create_counter(MINE)
    tpm.set_counter(0, LAST)
    with Tpm(tpm) as last:
        values = [last.read_counter(0), last.create_counter(YOURS)[1], last.increment_counter(0, MINE)]
    return values == [LAST, 0, 0]


def stays(tpm):
    """a counter stays over a start, and so does its value"""
    tpm.create_counter(MINE)
    values = [tpm.increment_counter(0, MINE)]
    tpm.power_on()
    return values + [tpm.read_counter(0), tpm.increment_counter(0, MINE)] == [2, 2, 3]


def localities(tpm):
    """registers 17 to 22 are extended from some localities alone: from 2 all of them, from 0 none"""
    allowed = []
    for locality in range(5):
        tpm.locality(locality)
        tried = [answer(tpm.extend, register, bytes(20)) for register in range(24)]
        allowed.append([register for register in range(17, 23) if tried[register] == SUCCESS])
        if any(tried[:17] + tried[23:]) or set(tried) - {SUCCESS, BAD_LOCALITY}:
            return False
    return allowed == [[], [20], list(range(17, 23)), [17, 18, 19, 20], [17, 18]]


def resets(tpm):
    """TPM_PCR_Reset resets 16 and 23 from each locality, 20 to 22 from 2, 17 to 20 from 4, and 0 to 15 from none"""
    for locality, some in enumerate([[], [], [20, 21, 22], [], [17, 18, 19, 20]]):
        tpm.locality(locality)
        tried = [answer(tpm.reset, register) for register in range(24)]
        middle = [SUCCESS if register in some else NOTLOCAL for register in range(17, 23)]
        if tried != [NOTRESETABLE] * 16 + [SUCCESS] + middle + [SUCCESS]:
            return False
    return True


def launches(tpm):
    """a launch resets registers 17 to 22 to 00, and extends 17"""
    before = [tpm.register(register) for register in range(24)]
    tpm.locality(2)
    for register in range(24):
        tpm.extend(register, MINE)
    extended = [sha1(value, MINE) for value in before]
    tpm.launch(b"image")
    after = [tpm.register(register) for register in range(24)]
    return after == extended[:17] + [sha1(bytes(20), sha1(b"image"))] + [bytes(20)] * 5 + extended[23:]


POINTS = [
    creation, increments, strangers, readers, room, first_value, handles, release, clearing, active, active_released,
    pace, wrapping, stays, localities, resets, launches,
]
