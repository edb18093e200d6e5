"""The library sr_c, and its calls as c/naworuke.h declares them."""
import ctypes
import os
import pathlib

HERE = pathlib.Path(__file__).resolve().parent
FILE = os.environ.get('NAWORUKE_LIBRARY') or str(HERE / 'libnaworuke.so')

(DONE, ANSWERED, SENT, BUSY, DOWN, SQL, UP, CUT, ALREADY_CUT, DROPPED, NO_SUCH, EXPLAINED, WANTING, KEPT_BACK, APPLIED, FORGOT, WRITTEN,
 REFUSED, WELCOMED, BAD_MESSAGE, BAD_FRAME, NO_MEMORY, WORN, BAD_TEXT, OUT_OF_RANGE, BAD_LINE, BAD_CREATE) = range(27)


class Setting(ctypes.Structure):
    _fields_ = [(name, ctypes.c_uint32) for name in ('client', 'rows', 'regions', 'policy')]


class Told(ctypes.Structure):
    _fields_ = [('outcome', ctypes.c_uint32), ('why', ctypes.c_uint32), ('at', ctypes.c_uint64), ('number', ctypes.c_uint64),
                ('version', ctypes.c_uint64)]


class Region(ctypes.Structure):
    _fields_ = [('table', ctypes.c_uint32), ('columns', ctypes.c_uint32), ('stamp', ctypes.c_uint64), ('rows', ctypes.c_uint64)]


class Handle(ctypes.Structure):
    _fields_ = [('client', ctypes.c_void_p)]


BYTES = [ctypes.c_char_p, ctypes.c_size_t]
ROOM = [ctypes.c_char_p, ctypes.c_size_t]
CLIENT = [ctypes.POINTER(Handle)]
TOLD = [ctypes.POINTER(Told)]

# what each call takes and gives
CALLS = {
    'open': (BYTES + [ctypes.POINTER(Setting)] + CLIENT + TOLD, ctypes.c_uint32),
    'free': ([Handle], None),
    'query': (CLIENT + BYTES + TOLD, ctypes.c_uint32),
    'write': (CLIENT + BYTES + TOLD, ctypes.c_uint32),
    'explain': (CLIENT + BYTES + TOLD, ctypes.c_uint32),
    'evict': (CLIENT + [ctypes.c_size_t] + TOLD, ctypes.c_uint32),
    'cut': (CLIENT + TOLD, ctypes.c_uint32),
    'resume': (CLIENT + TOLD, ctypes.c_uint32),
    'feed': (CLIENT + BYTES, ctypes.c_uint32),
    'take': (CLIENT + TOLD, ctypes.c_uint32),
    'sent': (CLIENT + ROOM, ctypes.c_uint64),
    'rows': (CLIENT, ctypes.c_uint64),
    'cell': (CLIENT + [ctypes.c_size_t, ctypes.c_size_t, ctypes.POINTER(ctypes.c_int64)] + ROOM, ctypes.c_uint32),
    'pack': (CLIENT, ctypes.c_uint32),
    'text': (CLIENT + ROOM, ctypes.c_uint64),
    'version': (CLIENT, ctypes.c_uint64),
    'kept': (CLIENT, ctypes.c_uint64),
    'waits': (CLIENT, ctypes.c_bool),
    'regions': (CLIENT, ctypes.c_uint64),
    'region_at': (CLIENT + [ctypes.c_size_t, ctypes.POINTER(Region)], ctypes.c_bool),
}


def load():
    """The calls by their names, without the prefix."""
    try:
        shared = ctypes.CDLL(FILE)
    except OSError as fault:
        raise ImportError('The library is not there: run python/setup once, which needs a C compiler (%s)' % fault) from fault
    calls = {}
    for name, (takes, gives) in CALLS.items():
        call = getattr(shared, 'naworuke_' + name)
        call.argtypes, call.restype = takes, gives
        calls[name] = call
    return calls
