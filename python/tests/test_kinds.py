"""The two kinds of a chain are two motions: the kind that is certified has to be the kind that is driven."""
import os
import unittest

from common import ROOT
from jellyplain import Chain, MoveFile


class Kinds(unittest.TestCase):
    def test_slight_scale(self):
        """Poses that scale and shear by 0.05 %, which rigid allows: between them a rigid point is 11 mm outside the plain cover."""
        with open(os.path.join(ROOT, "examples", "slight_scale.txt"), "rb") as file:
            read = MoveFile.read(file.read())
        plain, rigid = (Chain(read.poses, rigid=kind) for kind in (False, True))
        plain_cover, rigid_cover = (chain.cover(read.bounds, depth=10) for chain in (plain, rigid))
        corner = read.bounds.p_min
        outside = max(plain_cover.p_min[1] - rigid.point(40 * k / 2000, corner)[1] for k in range(2001))
        self.assertEqual(round(1000 * outside, 1), 11.0)
        for k in range(2001):
            self.assertTrue(rigid_cover.contains(rigid.point(40 * k / 2000, corner)))
            self.assertTrue(plain_cover.contains(plain.point(40 * k / 2000, corner)))
