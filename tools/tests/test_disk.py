"""disk: what is said of a disk that is nearly full, and when."""

import os
import unittest
from pathlib import Path

from aclproxyctl.disk import Disk, size_in_words

GIB = 1024**3


class Sizes(unittest.TestCase):
    def test_words(self) -> None:
        for count, said in ((0, "0 bytes"), (1023, "1023 bytes"), (1536, "1.5 KiB"), (5 * 1024**2, "5.0 MiB"), (20 * GIB, "20.0 GiB"), (3 * 1024**4, "3.0 TiB")):
            self.assertEqual(size_in_words(count), said)


class Disks(unittest.TestCase):
    def setUp(self) -> None:
        self.now = 1000.0
        self.looks = 0
        self.free = 50 * GIB
        self.files = 1_000_000
        self.disk = Disk(Path("/x"), lambda: self.now, self.look)

    def look(self, folder: Path) -> os.statvfs_result:
        """A disk of 100 GiB in blocks of 4,096 bytes."""
        self.looks += 1
        blocks = self.free // 4096
        return os.statvfs_result((4096, 4096, 100 * GIB // 4096, blocks, blocks, 10_000_000, self.files, self.files, 0, 255))

    def test_it_is_looked_at_once_a_minute(self) -> None:
        for _ in range(120):
            self.assertIsNone(self.disk.news())
            self.now += 1
        self.assertEqual(self.looks, 2)

    def test_nearly_full(self) -> None:
        """Of 100 GiB 5% are more than 4 GiB, so 4 GiB count."""
        self.free = 4 * GIB
        self.assertIsNone(self.disk.news())
        self.now += 60
        self.free = 3 * GIB
        self.assertEqual(self.disk.news(), "the disk of /x is nearly full: 3.0 GiB of 100.0 GiB are free; the server ends when its journal cannot be written")
        # It is said again when half of that is gone, or after an hour.
        self.now += 60
        self.free = 2 * GIB
        self.assertIsNone(self.disk.news())
        self.now += 60
        self.free = GIB
        self.assertIn("1.0 GiB of 100.0 GiB", self.disk.news() or "")
        self.now += 3540
        self.assertIsNone(self.disk.news())
        self.now += 60
        self.assertIn("1.0 GiB of 100.0 GiB", self.disk.news() or "")
        self.now += 60
        self.free = 40 * GIB
        self.assertEqual(self.disk.news(), "the disk of /x has room again: 40.0 GiB of 100.0 GiB are free")
        self.now += 60
        self.assertIsNone(self.disk.news())

    def test_files(self) -> None:
        self.files = 7
        self.assertIn("50.0 GiB of 100.0 GiB are free, and 7 files can be made", self.disk.news() or "")

    def test_a_disk_that_cannot_be_asked(self) -> None:
        self.assertIsNone(Disk(Path("/there/is/none")).news())
