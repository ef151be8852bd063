"""The calls of include/solid.h for Python. The header says what they are given and what they answer. The archive is loaded as a shared
library:

    cc -shared -Wl,--whole-archive target/native/libsolid.a -Wl,--no-whole-archive -o libsolid.so
"""
import ctypes

SIZE, WORD, BYTES, MEMORY, NUMBER = ctypes.c_size_t, ctypes.c_uint64, ctypes.c_char_p, ctypes.c_void_p, ctypes.c_double
TYPES = {
    "solid_room_words": (WORD, [WORD]),
    "solid_reason": (BYTES, [WORD]),
    "solid_fuse_in": (WORD, [MEMORY, BYTES, SIZE, WORD, MEMORY, SIZE]),
    "solid_cells_in": (WORD, [MEMORY, BYTES, SIZE, WORD, MEMORY, SIZE]),
    "solid_offset_in": (WORD, [MEMORY, BYTES, SIZE, NUMBER, WORD, MEMORY, SIZE]),
    "solid_hollow_in": (WORD, [MEMORY, BYTES, SIZE, NUMBER, WORD, MEMORY, SIZE]),
    "solid_mesh_in": (WORD, [BYTES, SIZE, MEMORY, SIZE]),
    # the layout that this file is written for is in its name: a library of another one has no such function
    "solid_version_1": (WORD, []),
}


class Refused(Exception):
    """A refusal: its number, and what that says."""

    def __init__(self, number, reason):
        super().__init__(f"refused by {number}, {reason}")
        self.number, self.reason = number, reason


class Solid:
    """The library, with a room of so many corners. Each call gives the bytes of its answer or raises Refused."""

    def __init__(self, path, corners=8192):
        self.library = ctypes.CDLL(path)
        for name, (result, given) in TYPES.items():
            call = getattr(self.library, name)
            call.restype, call.argtypes = result, given
        self.version = self.library.solid_version_1()
        self.corners = corners
        self.room = (WORD * self.library.solid_room_words(corners))()
        self.memory = ctypes.create_string_buffer(64 * corners)

    def fuse(self, job):
        return self._answer(self.library.solid_fuse_in(self.room, job, len(job), self.corners, self.memory, len(self.memory)))

    def cells(self, job):
        return self._answer(self.library.solid_cells_in(self.room, job, len(job), self.corners, self.memory, len(self.memory)))

    def offset(self, cell, distance):
        return self._answer(
            self.library.solid_offset_in(self.room, cell, len(cell), distance, self.corners, self.memory, len(self.memory))
        )

    def hollow(self, cell, thickness):
        return self._answer(
            self.library.solid_hollow_in(self.room, cell, len(cell), thickness, self.corners, self.memory, len(self.memory))
        )

    def mesh(self, facet):
        return self._answer(self.library.solid_mesh_in(facet, len(facet), self.memory, len(self.memory)))

    def _answer(self, told):
        number, size = told % 256, told // 256
        if number:
            raise Refused(number, self.library.solid_reason(number).decode())
        return ctypes.string_at(self.memory, size)
