"""Serves the one batch of a log through the shared library: install.py LIBRARY LOG prints its answers."""
import ctypes
import sys

Words = ctypes.POINTER(ctypes.c_uint64)
DONE, REQUEST_WORDS, ANSWER_WORDS = 0, 4, 8
NUMBERS, CALLS = 17, 12  # one past the last, as in the header
RETIRED = 15  # a number without a name
NOT_TAKEN = 0, 9, 10  # calls without a name


def load(name):
    """The library, with the types of its functions."""
    library = ctypes.CDLL(name)
    sizes, words = [ctypes.c_uint64] * 3, [Words, ctypes.c_size_t]
    library.ivleague_make.argtypes = sizes + words * 2
    library.ivleague_audit.argtypes = words
    library.ivleague_serve.argtypes = words * 3
    library.ivleague_number_name.argtypes = library.ivleague_call_name.argtypes = [ctypes.c_uint64]
    for function in library.ivleague_make, library.ivleague_audit, library.ivleague_serve:
        function.restype = ctypes.c_uint64
    library.ivleague_version.argtypes = []
    for function in library.ivleague_number_name, library.ivleague_call_name, library.ivleague_version:
        function.restype = ctypes.c_char_p
    return library


def read(name):
    """The sizes, the holes and the request words of a log."""
    with open(name, encoding="utf-8") as log:
        lines = [line.split() for line in log if not line.startswith(("#", "batch"))]
    first = [int(word) for word in lines[0][1:]]
    return first[:3], first[3:], [int(word) for line in lines[1:] for word in line]


def serve(library, sizes, pairs, words):
    """The answer words of a batch that a new state of these sizes and holes is asked."""
    treelings, domains, frames = sizes
    state = (ctypes.c_uint64 * (25 + 6 * domains + 517 * treelings + frames))()
    holes = (ctypes.c_uint64 * (len(pairs) + 1))(*pairs)
    requests = (ctypes.c_uint64 * len(words))(*words)
    answers = (ctypes.c_uint64 * (len(words) // REQUEST_WORDS * ANSWER_WORDS))()
    assert library.ivleague_make(*sizes, holes, len(pairs) + 1, state, len(state)) == 1
    assert library.ivleague_make(*sizes, holes, len(pairs), state, len(state) + 1) == 2
    assert library.ivleague_make(*sizes, holes if pairs else None, len(pairs), state, len(state)) == DONE
    assert library.ivleague_serve(state, len(state), requests, len(requests), answers, len(answers)) == DONE
    assert library.ivleague_audit(state, len(state)) == DONE
    return answers


def check_names(library):
    """Every number and every call has a name of its own, and anything else a name as well."""
    numbers = {library.ivleague_number_name(number) for number in range(NUMBERS) if number != RETIRED}
    calls = {library.ivleague_call_name(call) for call in range(CALLS) if call not in NOT_TAKEN}
    assert len(numbers) == NUMBERS - 1 and len(calls) == CALLS - len(NOT_TAKEN) and b"" not in numbers | calls
    assert library.ivleague_number_name(16) == b"frame in a hole" and b"unknown" not in numbers
    for other in RETIRED, NUMBERS, 2**64 - 1:
        assert library.ivleague_number_name(other) == b"unknown"
    assert library.ivleague_call_name(8) == b"trim" and library.ivleague_call_name(11) == b"fill" and b"no call" not in calls
    for other in *NOT_TAKEN, CALLS, 2**64 - 1:
        assert library.ivleague_call_name(other) == b"no call"


def main():
    library = load(sys.argv[1])
    check_names(library)
    assert library.ivleague_version().decode() in open("host/ivleague.h", encoding="utf-8").read().split('"')
    answers = serve(library, *read(sys.argv[2]))
    for at in range(0, len(answers), ANSWER_WORDS):
        print(*answers[at : at + ANSWER_WORDS])


main()
