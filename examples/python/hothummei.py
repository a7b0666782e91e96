"""Queries to a PostgreSQL server, by the library's C calls.

    import hothummei
    connection = hothummei.connect("user=me password=mine dbname=mine", host="127.0.0.1", port=5432)
    rows = connection.query("SELECT 1, 'one'")             # [(1, 'one')]
    rows = connection.query("SELECT $1::int + 1", 41)      # [(42,)]

Each query is a session of its own, with a connection of its own. The shared object is made from the archive by

    cc -shared -o libhothummei.so -Wl,--whole-archive libhothummei.a -Wl,--no-whole-archive

and is looked for by the name in HOTHUMMEI_LIBRARY, or else as libhothummei.so.
"""

import ctypes
import decimal
import os
import socket

_lib = ctypes.CDLL(os.environ.get("HOTHUMMEI_LIBRARY", "libhothummei.so"))


class _Value(ctypes.Structure):
    _fields_ = [("at", ctypes.c_void_p), ("len", ctypes.c_size_t), ("null", ctypes.c_uint32)]

    def bytes(self):
        return None if self.null else ctypes.string_at(self.at, self.len)


class _Answer(ctypes.Structure):
    _fields_ = [("kind", ctypes.c_uint32), ("results", ctypes.c_size_t), ("types", ctypes.c_size_t)]


class _Result(ctypes.Structure):
    _fields_ = [("kind", ctypes.c_uint32), ("columns", ctypes.c_size_t), ("rows", ctypes.c_size_t), ("command", _Value),
                ("count", ctypes.c_uint64), ("counted", ctypes.c_uint32)]


class _Column(ctypes.Structure):
    _fields_ = [("name", _Value), ("oid", ctypes.c_uint32), ("format", ctypes.c_uint32)]


class _Row(ctypes.Structure):
    _fields_ = [("values", ctypes.POINTER(_Value)), ("count", ctypes.c_size_t)]


def _call(name, *kinds, result=ctypes.c_uint32):
    call = getattr(_lib, "hothummei_" + name)
    call.argtypes, call.restype = kinds, result
    return call


_S, _B, _N, _U = ctypes.c_void_p, ctypes.c_char_p, ctypes.c_size_t, ctypes.c_uint32
_new, _free = _call("new", result=_S), _call("free", _S, result=None)
_code_name = _call("code_name", _U, result=_B)
_connection = _call("connection", _S, _B, _N, _B)
_simple, _prepare = _call("simple", _S, _B, _N), _call("prepare", _S, _B, _N, _B, _N)
_parameter, _null_parameter = _call("parameter", _S, _B, _N), _call("null_parameter", _S)
_describe, _query = _call("describe", _S, _U, _B, _N), _call("query", _S, _B, _N)
_start, _phase = _call("start", _S, ctypes.c_uint64), _call("phase", _S)
_pending, _sent = _call("pending", _S, ctypes.POINTER(_Value)), _call("sent", _S, _N)
_take, _at_end = _call("take", _S, _B, _N), _call("at_end", _S)
_sentence, _error_field = _call("sentence", _S, ctypes.POINTER(_Value)), _call("error_field", _S, _U, ctypes.POINTER(_Value))
_answer, _answer_field = _call("answer", _S, _N, ctypes.POINTER(_Answer)), _call("answer_field", _S, _N, _U, ctypes.POINTER(_Value))
_result, _column = _call("result", _S, _N, _N, ctypes.POINTER(_Result)), _call("column", _S, _N, _N, _N, ctypes.POINTER(_Column))
_row = _call("row", _S, _N, _N, _N, ctypes.POINTER(_Row))

_DONE, _REMOTE, _REMOTE_ERROR = 4, 8, 17


class Error(Exception):
    """What a session failed by: the code's name, the sentence, and the SQLSTATE of a server's error."""

    def __init__(self, name, sentence, sqlstate=None):
        super().__init__(f"{name}: {sentence}" if sentence else name)
        self.name, self.sentence, self.sqlstate = name, sentence, sqlstate


def _shown(call, *words):
    value = _Value()
    return value.bytes().decode() if call(*words, ctypes.byref(value)) == 0 else None


def _check(session, code):
    if code:
        state = _shown(_error_field, session, ord("C")) if code == _REMOTE_ERROR else None
        raise Error(_code_name(code).decode(), _shown(_sentence, session), state)


# How the text of a value is read, by the number of its type; all others are texts.
_READ = {16: lambda b: b == b"t", 17: lambda b: bytes.fromhex(b[2:].decode()), 20: int, 21: int, 23: int, 26: int,
         700: float, 701: float, 1700: lambda b: decimal.Decimal(b.decode())}


def _text(b):
    return b.decode()


class Connection:
    """Where a server is, and what logs in there."""

    def __init__(self, text, host, port):
        self._text, self._host, self._port = text.encode(), host, port

    def query(self, sql, *parameters):
        """The rows of the last result of a query, as tuples."""
        session = _new()
        if not session:
            raise MemoryError
        try:
            self._ask(session, sql.encode(), parameters)
            self._hold(session)
            return _rows(session, len(parameters) > 0)
        finally:
            _free(session)

    def _ask(self, session, sql, parameters):
        _check(session, _connection(session, self._text, len(self._text), os.urandom(18)))
        if not parameters:
            _check(session, _simple(session, sql, len(sql)))
            return
        # The description tells the types of the columns.
        _check(session, _prepare(session, b"", 0, sql, len(sql)))
        _check(session, _describe(session, 0, b"", 0))
        for value in parameters:
            text = str(value).encode()
            _check(session, _null_parameter(session) if value is None else _parameter(session, text, len(text)))
        _check(session, _query(session, sql, len(sql)))

    def _hold(self, session):
        with socket.create_connection((self._host, self._port)) as link:
            code, out = _start(session, 2**64 - 1), _Value()
            while True:
                _pending(session, ctypes.byref(out))
                if out.len:
                    link.sendall(out.bytes())
                    _sent(session, out.len)
                _check(session, code)
                if _phase(session) == _DONE:
                    return
                piece = link.recv(65536)
                code = _take(session, piece, len(piece)) if piece else _at_end(session)


def _refuse(session, answer):
    told = _Answer()
    _check(session, _answer(session, answer, ctypes.byref(told)))
    if told.kind == _REMOTE:
        raise Error("REMOTE_ERROR", _shown(_answer_field, session, answer, ord("M")), _shown(_answer_field, session, answer, ord("C")))
    return told


def _readers(session, answer, result, columns):
    column, readers = _Column(), []
    for at in range(columns):
        _check(session, _column(session, answer, result, at, ctypes.byref(column)))
        readers.append(_READ.get(column.oid, _text))
    return readers


def _rows(session, described):
    last, info, row, rows = (2 if described else 0), _Result(), _Row(), []
    told = _refuse(session, 0)
    if described:
        _refuse(session, 1)
        told = _refuse(session, last)
    if told.results == 0:
        return rows
    where = (1, 0) if described else (last, told.results - 1)
    _check(session, _result(session, *where, ctypes.byref(info)))
    readers = _readers(session, *where, info.columns)
    _check(session, _result(session, last, told.results - 1, ctypes.byref(info)))
    for at in range(info.rows):
        _check(session, _row(session, last, told.results - 1, at, ctypes.byref(row)))
        values = row.values[:row.count]
        rows.append(tuple(None if v.null else read(v.bytes()) for v, read in zip(values, readers)))
    return rows


def connect(text, host="localhost", port=5432):
    """Where to ask, and by which connection text. Nothing is dialed yet."""
    return Connection(text, host, port)
