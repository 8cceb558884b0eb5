"""Lists of times: sequences, buffers that are lent, and buffers lent for the answers."""
import ctypes
from array import array

from common import INFINITY, NAN, TestCase, four_poses
from jellyplain import Chain
from jellyplain._buffers import lent

P = (3, 0.5, -1)


class Points(TestCase):
    def setUp(self):
        self.chain = Chain(four_poses())

    def expected(self, times):
        return array("f", [x for time in times for x in self.chain.point(time, P)])

    def test_ten_thousand_times_in_one_call(self):
        times = array("f", [k / 2000 for k in range(10000)])
        points = self.chain.points(times, P)
        self.assertEqual(len(points), 30000)
        self.assertEqual(points, self.expected(times))
        # Neither is held any longer.
        times.append(9)
        points.append(9)

    def test_sequences_and_buffers(self):
        times = [-INFINITY, 0, 0, 1.5, 2, 2.5, 3, 3, 4.5, 9]
        singles = array("f", times)
        floats = (ctypes.c_float * 10)(*times)
        for given in [times, tuple(times), singles, array("d", times), memoryview(singles), memoryview(singles).toreadonly(), memoryview(bytes(singles)).cast("f"), floats,
                      memoryview(array("f", [x for time in times for x in (time, 7)]))[::2], (ctypes.c_double * 10)(*times)]:
            self.assertEqual(self.chain.points(given, P), self.expected(times))
        for none in ([], array("f"), memoryview(array("f")), array("d")):
            self.assertEqual(self.chain.points(none, P), array("f"))

    def test_what_is_lent_is_not_copied(self):
        for given in (array("f", [1, 2, 3]), memoryview(array("f", [1, 2, 3])), (ctypes.c_float * 3)(1, 2, 3), memoryview(bytearray(12)).cast("f")):
            place = ctypes.addressof(ctypes.c_float.from_buffer(given))
            self.assertEqual(lent(given, "times")[1:], (place, 3))
        resized = array("f", [1, 2, 3])
        keeper = lent(resized, "times")
        with self.assertRaises(BufferError):
            resized.append(4)
        self.assertEqual(keeper.count, 3)

    def test_a_buffer_that_is_not_aligned(self):
        room = memoryview(bytearray(4 * 64))
        shifted = next(k for k in range(1, 5) if ctypes.addressof(ctypes.c_uint8.from_buffer(room[k:])) % 4 == 1)
        times, out = room[shifted:shifted + 8].cast("f"), room[shifted + 8:shifted + 32].cast("f")
        times[0], times[1] = 0.5, 1.5
        self.assertEqual(self.chain.points(times, P), self.expected([0.5, 1.5]))
        with self.assertRaises(ValueError):
            self.chain.points(times, P, out)

    def test_answers_into_a_buffer(self):
        times = [0.5, 1.5, 2.5]
        for out in (array("f", [7] * 9), (ctypes.c_float * 9)(), (ctypes.c_float * 3 * 3)(), memoryview(bytearray(36)).cast("f"), memoryview(bytearray(36)).cast("f", (3, 3))):
            self.assertIs(self.chain.points(times, P, out), out)
            self.assertEqual(bytes(memoryview(out)), bytes(self.expected(times)))

    def test_wrong_buffers(self):
        times = array("f", [0.5, 1.5, 2.5])
        for out in (array("f", [7] * 8), array("f", [7] * 10), array("f"), array("d", [7] * 9), array("i", [7] * 9), bytearray(36), memoryview(bytes(36)).cast("f"),
                    memoryview(array("f", [7] * 18))[::2]):
            before = bytes(memoryview(out))
            with self.assertRaises(ValueError):
                self.chain.points(times, P, out)
            self.assertEqual(bytes(memoryview(out)), before)
        with self.assertRaises(TypeError):
            self.chain.points(times, P, [0.0] * 9)
        both = memoryview(array("f", [0.5, 1.5, 2.5] + [7] * 9))
        with self.assertRaises(ValueError):
            self.chain.points(both[:3], P, both[2:11])
        self.chain.points(both[:3], P, both[3:])
        self.assertEqual(array("f", both[3:].tobytes()), self.expected(times))
        with self.assertRaises(ValueError):
            self.chain.points(memoryview(bytearray(48)).cast("f", (3, 4)), P)
        for wrong in (b"12345678", bytearray(8), "0123", [[1.0]], 5):
            with self.assertRaises(TypeError):
                self.chain.points(wrong, P)
        with self.assertRaises(ValueError):
            self.chain.points(times, (1, 2))

    def test_refused(self):
        for number, times, p in [(13, [1, 0.5], P), (6, [1, NAN, 0.5], P), (6, [], (INFINITY, 0, 0)), (6, [1], (0, NAN, 0))]:
            out = array("f", [7] * (3 * len(times)))
            with self.refused(number):
                self.chain.points(times, p, out)
            self.assertEqual(out, array("f", [7] * (3 * len(times))))
            with self.refused(number):
                self.chain.points(array("f", times), p)
