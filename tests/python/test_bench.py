"""Whole migrations over ctypes, replayed and compared, one of them after an abort, and some refusals."""

import os
import random
import sys
import unittest

import chirpsteeple as chirp

PAGES = 300
MIGRATE, CANCEL, REMIGRATE = 1, 2, 3
RESTORE = 1
LIBRARY = chirp.load(os.path.abspath(sys.argv[1]))
ALL = 1 << 63


class Guest:
    """A bench with a guest whose memory is kept here too: page to contents, None while it is pending; absent pages are not in it."""

    def __init__(self):
        self.bench = chirp.Bench(LIBRARY, PAGES)
        self.random = random.Random(2025)
        self.memory = {}
        self.must(self.bench.new(3))
        for page in range(PAGES):
            if page % 10 < 8:
                self.must(self.bench.add(page))
                self.memory[page] = None
            if page % 10 < 7:
                self.accept(page)

    def must(self, code):
        if code != chirp.DONE:
            raise AssertionError(f"answered {code}")

    def accept(self, page):
        self.must(self.bench.accept(page))
        self.memory[page] = 0

    def work(self, moves):
        for _ in range(moves):
            page = self.random.choice(sorted(self.memory))
            if self.memory[page] is None:
                self.accept(page)
            mark = self.random.getrandbits(64)
            self.must(self.bench.write(page, mark))
            self.memory[page] = mark

    def give_up(self, page):
        """The host takes a page back: block, track, remove."""
        self.must(self.bench.block(page))
        self.must(self.bench.track())
        self.must(self.bench.remove(page))
        del self.memory[page]


class Migration:
    """Scans and exports; keeps what was sent, in order."""

    def __init__(self, guest):
        self.guest, self.bench = guest, guest.bench
        self.sent = []
        self.statuses = {}

    def collect(self, scan, ending):
        """Calls the scan with lists of 40 entries until it answers its last code; returns all entries."""
        entries, code, place = [], None, 0
        while code != ending:
            listed = chirp.as_bytes([0] * 40)
            code, place, first, last = scan(place, listed)
            if code not in (chirp.INTERRUPTED, chirp.LIST_FULL, ending):
                raise AssertionError(f"a scan answered {code}")
            entries += chirp.words(listed)[first:last + 1]
        return entries

    def scan(self):
        return self.collect(lambda place, listed: self.bench.dscan(place, PAGES - place, listed, 70), chirp.DONE)

    def check(self):
        return self.collect(lambda _, listed: self.bench.dcheck(listed, 70), chirp.CHECK_COMPLETE)

    def export(self, entries, moves):
        """One operation on stream 1, 16 entries a call, with the guest at work between the calls."""
        listed, contents = chirp.as_bytes(entries), chirp.as_bytes([0] * len(entries))
        info, resume, code = chirp.info_for(0, len(entries) - 1), 0, chirp.INTERRUPTED
        errors = 0
        while code == chirp.INTERRUPTED:
            begin = chirp.info_first(info)
            code, info, told, _ = self.bench.export(listed, contents, 1, resume, info, 16)
            if code not in (chirp.DONE, chirp.INTERRUPTED):
                raise AssertionError(f"export answered {code}")
            end = len(entries) if code == chirp.DONE else chirp.info_first(info)
            errors += self.read_back(chirp.words(listed)[begin:end], chirp.words(contents)[begin:end])
            resume = 1
            self.guest.work(moves)
        if told != errors:
            raise AssertionError(f"{told} errors told, {errors} in the entries")

    def read_back(self, entries, contents):
        errors = 0
        for entry, word in zip(entries, contents):
            page, operation, pending, status = chirp.entry_fields(entry)
            self.statuses[status] = self.statuses.get(status, 0) + 1
            if status == 0:
                self.sent.append((page, operation, pending, word))
            errors += status not in (0, 1)
        return errors

    def round(self):
        """Scan, track, export, with the guest at work; the next round needs a new epoch."""
        entries = self.scan()
        self.guest.work(5)
        self.guest.must(self.bench.track())
        self.export(entries, 5)

    def finish(self, entries):
        """In Blackout: sends what the check listed, in an epoch of its own. Returns what the token answers."""
        self.guest.must(self.bench.new_epoch())
        self.export(entries, 0)
        return self.bench.start_token()

    def replayed(self):
        memory = {}
        for page, operation, pending, word in self.sent:
            if operation == CANCEL:
                del memory[page]
            else:
                memory[page] = None if pending else word
        return memory


class WholeMigration(unittest.TestCase):
    def test_a_migration_replayed_is_the_guest(self):
        guest = Guest()
        bench, migration = guest.bench, Migration(guest)
        guest.work(100)
        guest.must(bench.start())
        for round_number in range(4):
            migration.round()
            guest.give_up(10 * round_number)
            guest.must(bench.new_epoch())
        guest.must(bench.pause())
        entries = migration.check()
        self.assertEqual((chirp.words(bench.session)[0], len(entries) > 0), (2, True))
        self.assertEqual(bench.start_token()[0], 53)
        self.assertEqual(migration.finish(entries), (chirp.DONE, 0))
        self.assertEqual(migration.replayed(), guest.memory)
        self.assertIn(17, migration.statuses)
        self.assertEqual({sent[1] for sent in migration.sent}, {MIGRATE, CANCEL, REMIGRATE})


class AfterAnAbort(unittest.TestCase):
    """The migration was given up after a round: every page that was sent waits to be restored."""

    def setUp(self):
        self.guest = Guest()
        self.bench = self.guest.bench
        self.guest.work(100)
        self.guest.must(self.bench.start())
        migration = Migration(self.guest)
        migration.round()
        self.sent = [page for page, *_ in migration.sent]
        self.last = len(self.sent) - 1
        self.asked = [chirp.entry_for(page) for page in self.sent]
        self.table = bytes(self.bench.table)
        self.guest.must(self.bench.abort())

    def left(self):
        """The pages that are exported, or were removed after their export."""
        return {page for page in range(PAGES) if self.bench.table[chirp.PAGE_BYTES * page] >= 24}

    def test_every_record_is_left(self):
        self.assertEqual(bytes(self.bench.table), self.table)
        self.assertEqual((chirp.words(self.bench.session)[0], chirp.words(self.bench.session)[3]), (0, 0))
        self.assertEqual(self.left(), set(self.sent))

    def test_a_start_is_45_and_a_write_lands(self):
        page = next(page for page in self.sent if self.guest.memory[page] is not None)
        self.assertEqual(self.bench.start(), 45)
        self.assertEqual(bytes(self.bench.table), self.table)
        self.assertEqual(self.bench.block(page), 45)
        self.assertEqual(self.bench.write(page, 77), chirp.DONE)
        self.assertEqual(chirp.words(self.bench.table)[2 * page + 1], 77)

    def test_a_restore_that_is_refused_or_has_no_budget_leaves_every_byte(self):
        listed, info = chirp.as_bytes(self.asked), chirp.info_for(0, self.last)
        for wrong in (chirp.info_for(0, self.last + 1), chirp.info_for(1, 0), info | 1, info | 1 << 52):
            with self.subTest(info=hex(wrong)):
                self.assertEqual(self.bench.restore(listed, wrong, ALL), (42, 0))
        self.assertEqual(self.bench.restore(listed[:-1], chirp.info_for(0, 0), ALL), (42, 0))
        self.assertEqual(self.bench.restore(bytearray(), chirp.info_for(0, 0), ALL), (42, 0))
        self.assertEqual(self.bench.restore(listed, info, 0), (chirp.INTERRUPTED, info))
        self.assertEqual((chirp.words(listed), bytes(self.bench.table)), (self.asked, self.table))

    def test_restored_in_two_calls_it_starts_again_and_gets_its_token(self):
        listed, info, session = chirp.as_bytes(self.asked), chirp.info_for(0, self.last), bytes(self.bench.session)
        code, info = self.bench.restore(listed, info, 100)
        self.assertEqual((code, info), (chirp.INTERRUPTED, chirp.info_for(100, self.last)))
        self.assertEqual((chirp.words(listed)[100:], self.left()), (self.asked[100:], set(self.sent[100:])))
        self.assertEqual(self.bench.start(), 45)
        self.assertEqual(self.bench.restore(listed, info, ALL), (chirp.DONE, chirp.info_for(self.last + 1, self.last)))
        self.assertEqual([chirp.entry_fields(entry) for entry in chirp.words(listed)], [(page, RESTORE, 0, 0) for page in self.sent])
        self.assertEqual((self.left(), bytes(self.bench.session)), (set(), session))

        self.guest.must(self.bench.start())
        migration = Migration(self.guest)
        migration.round()
        self.guest.must(self.bench.pause())
        self.assertEqual(self.bench.restore(listed, chirp.info_for(0, self.last), ALL), (41, 0))
        self.assertEqual(migration.finish(migration.check()), (chirp.DONE, 0))
        self.assertEqual(migration.replayed(), self.guest.memory)


class Refusals(unittest.TestCase):
    """A refused call answers its code and leaves every byte."""

    def setUp(self):
        self.bench = Guest().bench
        self.listed, self.contents = chirp.as_bytes([chirp.entry_for(0)] * 4), chirp.as_bytes([9] * 4)
        self.assertEqual(self.bench.start(), chirp.DONE)

    def refused(self, answer, call, *operands):
        slices = [self.bench.session, self.bench.table] + [operand for operand in operands if isinstance(operand, bytearray)]
        before = [bytes(data) for data in slices]
        self.assertEqual(call(*operands), answer)
        self.assertEqual([bytes(data) for data in slices], before)

    def test_damaged_sessions_are_40(self):
        sound = bytes(self.bench.session)
        for place, value in [(0, 4), (1, 0), (2, 0), (3, 0), (4, 10), (5, PAGES + 1), (6, 2), (7, 2), (8, 2), (9, 1)]:
            damaged = chirp.words(sound)
            damaged[place] = value
            self.bench.session[:] = chirp.as_bytes(damaged)
            with self.subTest(word=place):
                self.refused(40, self.bench.track)
                self.refused((40, 0), self.bench.start_token)
                self.refused((40, 0, 0, 0), self.bench.dscan, 0, PAGES, self.listed, ALL)

    def test_ragged_lists_and_buffers_are_42(self):
        ragged = self.listed[:-1]
        self.refused((42, 0, 0, 0), self.bench.dscan, 0, PAGES, ragged, ALL)
        self.refused((42, 0, 0, 0), self.bench.export, ragged, self.contents, 0, 0, chirp.info_for(0, 0), ALL)
        self.refused((42, 0, 0, 0), self.bench.export, self.listed, self.contents[:-1], 0, 0, chirp.info_for(0, 0), ALL)

    def test_codes_come_in_order(self):
        self.refused((41, 0, 0, 0), self.bench.dcheck, self.listed[:-1], ALL)
        self.refused(41, self.bench.start)
        self.refused(42, self.bench.write, PAGES, 1)
        self.refused(42, self.bench.write, (1 << 64) - 1, 1)
        self.refused(45, self.bench.write, PAGES - 1, 1)
        self.refused((44, 0, 0, 0), self.bench.export, self.listed, self.contents, 0, 1, chirp.info_for(0, 3), ALL)
        self.refused((42, 0, 0, 0), self.bench.export, self.listed, self.contents, 0, 2, chirp.info_for(0, 3), ALL)

    def test_tracking_comes_between_scan_and_export(self):
        self.assertEqual(self.bench.dscan(0, 1, self.listed, ALL)[0], chirp.DONE)
        code, _, errors, buffers = self.bench.export(self.listed[:8], self.contents[:8], 0, 0, chirp.info_for(0, 0), ALL)
        self.assertEqual((code, errors, buffers), (chirp.DONE, 1, 2))


if __name__ == "__main__":
    result = unittest.TextTestRunner(stream=sys.stdout, verbosity=2).run(unittest.defaultTestLoader.loadTestsFromModule(sys.modules["__main__"]))
    failed = len(result.failures) + len(result.errors) + (result.testsRun == 0)
    print(f"{max(result.testsRun - failed, 0)} passed, {failed} failed")
    sys.exit(1 if failed else 0)
