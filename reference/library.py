"""The C interface of ours, through ctypes: each call with its arguments as Python has them.

It is no program. An argument is a number; bytes, for a slice of bytes; or a pair of a width and a list, for a slice of
numbers of that many bytes. An empty slice has a null pointer.
"""

import ctypes

UNTOUCHED = 2**64 - 1  # in `out` before a call
SIZES = {1: ctypes.c_uint8, 4: ctypes.c_uint32, 8: ctypes.c_uint64}


def items(argument):
    """What a slice holds."""
    return list(argument if isinstance(argument, bytes) else argument[1])


def passed_as(argument):
    """The slice as an array of C, which the call may write."""
    if isinstance(argument, bytes):
        return (SIZES[1] * len(argument)).from_buffer_copy(argument)
    width, held = argument
    return (SIZES[width] * len(held))(*held)


def slices(arguments):
    return [items(argument) for argument in arguments if not isinstance(argument, int)]


class Library:
    def __init__(self, path):
        self.library = ctypes.CDLL(str(path))

    def call(self, name, *arguments, words=2):
        """The status, the words of `out`, and what each slice holds afterwards. A word after those of `out` stays as it was."""
        passed, arrays = [], []
        for argument in arguments:
            if isinstance(argument, int):
                passed.append(ctypes.c_uint64(argument))
                continue
            array = passed_as(argument)
            passed += [array if len(array) else None, ctypes.c_size_t(len(array))]
            arrays.append(array)
        out = (ctypes.c_uint64 * (words + 1))(*[UNTOUCHED] * (words + 1))
        function = getattr(self.library, f"kitchen_{name}")
        function.restype = ctypes.c_uint32
        status = function(*passed, out)
        if out[words] != UNTOUCHED:
            raise IndexError(f"{name} wrote more than {words} words")
        return status, tuple(out[:words]), [array[:] for array in arrays]
