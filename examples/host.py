#!/usr/bin/env python3
"""A whole host in Python, without numpy: makes a state, serves one batch and prints each answer by name, as host/example.c does.

    python3 examples/host.py [LIBRARY]       # libivleague.so after make install, or the path of one
"""
import ctypes
import sys

OPEN, CLOSE, MAP, PATH, MAP_RUN = 1, 2, 3, 5, 6  # enum ivleague_call
NUMBER, LEVEL_4, POSITION, PAGES = 0, 5, 6, 7  # enum ivleague_answer
REQUEST_WORDS, ANSWER_WORDS = 4, 8
TREELINGS, DOMAINS, FRAMES = 4, 2, 64
HOLES = [16, 8]  # frames 16 to 23 are a device's
REQUESTS = [  # call, domain, frame, count
    (OPEN, 0, 0, 0),  # domain 0
    (MAP_RUN, 0, 0, 10),  # frames 0 to 9
    (PATH, 0, 9, 0),  # where frame 9 lies
    (MAP, 1, 9, 0),  # refused: domain 1 is not open
    (MAP, 0, 16, 0),  # refused: the frame lies in the hole
    (CLOSE, 0, 0, 0),  # gives the ten pages back
]


def load(name):
    """The library, with the types of the functions that are used here."""
    library = ctypes.CDLL(name)
    words = [ctypes.POINTER(ctypes.c_uint64), ctypes.c_size_t]
    library.ivleague_make.argtypes = [ctypes.c_uint64] * 3 + words * 2
    library.ivleague_serve.argtypes = words * 3
    for function in library.ivleague_make, library.ivleague_serve:
        function.restype = ctypes.c_uint64
    for function in library.ivleague_number_name, library.ivleague_call_name:
        function.argtypes, function.restype = [ctypes.c_uint64], ctypes.c_char_p
    library.ivleague_version.argtypes, library.ivleague_version.restype = [], ctypes.c_char_p
    return library


def words(values):
    """A buffer of 64-bit words; a number gives so many zeros."""
    return (ctypes.c_uint64 * values)() if isinstance(values, int) else (ctypes.c_uint64 * len(values))(*values)


def serve(library, state, requests):
    """The answers of a batch, eight words for each request."""
    asked = words([word for request in requests for word in request])
    answers = words(len(requests) * ANSWER_WORDS)
    number = library.ivleague_serve(state, len(state), asked, len(asked), answers, len(answers))
    if number:
        raise ValueError(library.ivleague_number_name(number).decode())
    return [answers[at:at + ANSWER_WORDS] for at in range(0, len(answers), ANSWER_WORDS)]


def main():
    library = load(sys.argv[1] if len(sys.argv) > 1 else "libivleague.so")
    state = words(25 + 6 * DOMAINS + 517 * TREELINGS + FRAMES)
    holes = words(HOLES)
    number = library.ivleague_make(TREELINGS, DOMAINS, FRAMES, holes, len(holes), state, len(state))
    if number:
        raise ValueError(library.ivleague_number_name(number).decode())
    answers = serve(library, state, REQUESTS)
    print(f"ivleague {library.ivleague_version().decode()}, batch: done")
    for request, answer in zip(REQUESTS, answers):
        call, said = library.ivleague_call_name(request[0]).decode(), library.ivleague_number_name(answer[NUMBER]).decode()
        print(f"{call}: {said}, leaf node {answer[LEVEL_4]}, position {answer[POSITION]}, pages {answer[PAGES]}")


main()
