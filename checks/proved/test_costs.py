"""The cost of each function: if a script grows fourfold, its cost grows by at most a quarter more than its bound. The
bounds are those of docs/PERFORMANCE.md, in cells; the cost is counted in instructions, without the start."""
import functools
import unittest
from concurrent.futures import ThreadPoolExecutor

from trac import GROWING, GROWS, PROGRAM, WORDS, cost, run


class Growth(unittest.TestCase):
    def test_each_job_ends_by_itself(self):
        for name, n, script, _ in GROWING:
            with self.subTest(name=name):
                self.assertEqual(run(script(n) + "'", *WORDS)[1:], ('', 0))

    def test_costs(self):
        with ThreadPoolExecutor() as pool:
            start = cost(PROGRAM, '')
            scripts = [script(k) for _, n, script, _ in GROWING for k in (n, GROWS * n)]
            counts = pool.map(functools.partial(cost, PROGRAM), scripts)
            for name, n, _, bound in GROWING:
                small, great = next(counts) - start, next(counts) - start
                with self.subTest(name=name):
                    self.assertLessEqual(great / small, 1.25 * bound(GROWS * n) / bound(n))


if __name__ == '__main__':
    unittest.main()
