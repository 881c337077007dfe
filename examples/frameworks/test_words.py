import ctypes
import os

words = ctypes.CDLL(f"{os.path.dirname(os.path.abspath(__file__))}/words.so")
words.word_copy.restype = ctypes.c_void_p
words.free.argtypes = [ctypes.c_void_p]


def check_copy(word, room):
    copy = words.word_copy(word, ctypes.c_size_t(room))
    assert ctypes.string_at(copy) == word
    words.free(copy)


def test_words_are_copied():
    check_copy(b"word", 5)


def test_words_have_room():
    check_copy(b"longer", 6)


def test_other_words_have_room():
    check_copy(b"longest", 6)
